//! Calls on contexts.
use crate::lines::Lines;
use crate::shown::{Show, answer_shown, free_shown};
use otel_base::{AnyValue, Key, StringValue};
use otel_context::Context;
use otel_context::baggage::Baggage;
use otel_ids::{SpanContext, SpanId, TraceFlags, TraceId, TraceState};
use std::alloc::{AllocError, Global};

pub fn play<R: Print>(alloc: Global, lines: &Lines<'_, R>) {
    for (name, call) in CALLS {
        if lines.begin(name) {
            lines.end(of_full(alloc, lines, call));
        }
    }
}

/// A call on a context.
#[derive(Clone, Copy)]
enum Call {
    WithValue,
    WithBaggage,
    WithClearedBaggage,
    WithRemoteSpanContext,
    WithTelemetrySuppressed,
    Clone,
    Looks,
}

/// The scenarios, each of which starts with a context that has every part.
const CALLS: [(&str, Call); 7] = [
    ("context-with-value", Call::WithValue),
    ("context-with-baggage", Call::WithBaggage),
    ("context-with-cleared-baggage", Call::WithClearedBaggage),
    (
        "context-with-remote-span-context",
        Call::WithRemoteSpanContext,
    ),
    (
        "context-with-telemetry-suppressed",
        Call::WithTelemetrySuppressed,
    ),
    ("context-clone", Call::Clone),
    ("context-looks", Call::Looks),
];

/// A baggage with this one pair.
pub fn baggage(
    alloc: Global,
    key: &'static str,
    value: &'static str,
) -> Result<Baggage, AllocError> {
    let mut baggage = Baggage::new(alloc);
    let _ = baggage.insert(Key::from(key), StringValue::from(value))?;
    Ok(baggage)
}

/// A remote span context with the number as both ids, and the trace state.
pub fn remote(id: u64, state: TraceState) -> SpanContext {
    let trace_id = TraceId::from(u128::from(id));
    SpanContext::new(trace_id, SpanId::from(id), TraceFlags::SAMPLED, true, state)
}

/// A remote span context with the number as both ids, and a trace state that allocates.
fn span_context(alloc: Global, id: u64) -> Result<SpanContext, AllocError> {
    let Ok(state) = TraceState::from_str(alloc, "v=1") else {
        return Err(AllocError);
    };
    Ok(remote(id, state))
}

/// A context with a baggage.
fn with_one_pair(alloc: Global) -> Result<Context, AllocError> {
    let baggage = baggage(alloc, "k", "v")?;
    Context::new().with_baggage(alloc, baggage)
}

/// A context with a baggage and a remote span context.
fn sent(alloc: Global) -> Result<Context, AllocError> {
    let span_context = span_context(alloc, 1)?;
    let context = with_one_pair(alloc)?;
    context.with_remote_span_context(alloc, span_context)
}

/// A context with the entry `a`, a baggage and a remote span context.
pub fn full(alloc: Global) -> Result<Context, AllocError> {
    let context = sent(alloc)?;
    context.with_value(alloc, Key::from("a"), AnyValue::Int(1))
}

/// Makes this call on a context that has every part.
fn of_full<R: Print>(alloc: Global, lines: &Lines<'_, R>, call: Call) -> Result<(), AllocError> {
    let context = full(alloc)?;
    called(alloc, lines, &context, call)
}

fn called<R: Print>(
    alloc: Global,
    lines: &Lines<'_, R>,
    context: &Context,
    call: Call,
) -> Result<(), AllocError> {
    match call {
        Call::WithValue => return with_value(alloc, lines, context),
        Call::WithBaggage => return with_baggage(alloc, lines, context),
        Call::WithRemoteSpanContext => return with_remote_span_context(alloc, lines, context),
        Call::WithClearedBaggage => derived(lines, context, context.with_cleared_baggage(alloc)),
        Call::WithTelemetrySuppressed => {
            derived(lines, context, context.with_telemetry_suppressed(alloc));
        }
        Call::Clone => copy(lines, context),
        Call::Looks => {
            looks(lines, context);
            of_span_context(lines, context.span_context());
        }
    }
    Ok(())
}

/// Prints the answer of a derivation, and the context that it was derived from.
fn derived<R: Print>(lines: &Lines<'_, R>, context: &Context, answer: Result<Context, AllocError>) {
    answer_shown(lines, answer);
    lines.receiver(&Show(context));
}

fn with_value<R: Print>(
    alloc: Global,
    lines: &Lines<'_, R>,
    context: &Context,
) -> Result<(), AllocError> {
    let key = String::from_str(alloc, "b")?;
    answer_shown(
        lines,
        context.with_value(alloc, Key::new(key), AnyValue::Int(2)),
    );
    derived(
        lines,
        context,
        context.with_value(alloc, Key::from("a"), AnyValue::Int(3)),
    );
    Ok(())
}

fn with_baggage<R: Print>(
    alloc: Global,
    lines: &Lines<'_, R>,
    context: &Context,
) -> Result<(), AllocError> {
    let other = baggage(alloc, "j", "w")?;
    derived(lines, context, context.with_baggage(alloc, other));
    Ok(())
}

fn with_remote_span_context<R: Print>(
    alloc: Global,
    lines: &Lines<'_, R>,
    context: &Context,
) -> Result<(), AllocError> {
    let other = span_context(alloc, 2)?;
    derived(
        lines,
        context,
        context.with_remote_span_context(alloc, other),
    );
    Ok(())
}

/// Clones of a context and of a span context don't allocate.
fn copy<R: Print>(lines: &Lines<'_, R>, context: &Context) {
    free_shown(lines, "Context::clone", context.clone());
    cloned(lines, context.span_context());
    lines.receiver(&Show(context));
}

fn cloned<R: Print>(lines: &Lines<'_, R>, span_context: &SpanContext) {
    match span_context.clone() {
        Ok(copy) => lines.free("SpanContext::clone", &(copy == *span_context)),
        Err(error) => lines.free("SpanContext::clone", &error),
    }
}

fn looks<R: Print>(lines: &Lines<'_, R>, context: &Context) {
    lines.free("Context::new", &Show(&Context::new()));
    lines.free("Context::get", &context.get("b").is_some());
    lines.free("Context::has_active_span", &context.has_active_span());
    lines.free("Context::span_number", &context.span_number().is_some());
    lines.free("Context::span_context", &context.span_context().is_valid());
    lines.free("Context::baggage", &context.baggage().is_some());
    lines.free(
        "Context::is_telemetry_suppressed",
        &context.is_telemetry_suppressed(),
    );
}

fn of_span_context<R: Print>(lines: &Lines<'_, R>, span_context: &SpanContext) {
    lines.free("SpanContext::trace_id", &span_context.trace_id());
    lines.free("SpanContext::span_id", &span_context.span_id());
    lines.free(
        "SpanContext::trace_flags",
        &span_context.trace_flags().to_u8(),
    );
    lines.free(
        "SpanContext::trace_state",
        &span_context.trace_state().iter().len(),
    );
    lines.free("SpanContext::is_valid", &span_context.is_valid());
    lines.free("SpanContext::is_remote", &span_context.is_remote());
    lines.free("SpanContext::is_sampled", &span_context.is_sampled());
}
