//! Calls on propagators and on composites of them.
use crate::lines::Lines;
use crate::propagators::carriers::{carrier, injected};
use crate::propagators::headers::{TRACE_KEYS, with_remote_span};
use opentelemetry::context::{Context, ContextStack};
use opentelemetry::propagation::{PropagationError, TextMapCompositePropagator, TextMapPropagator};
use opentelemetry::trace::TraceState;
use otel_propagators::{BaggagePropagator, TraceContextPropagator};
use std::alloc::{AllocError, Global};

/// The keys of a carrier with a text of its own, and of the texts that both propagators set.
const KEYS: [&str; 4] = ["kept", "traceparent", "tracestate", "baggage"];

/// A call on a composite or on one propagator.
#[derive(Clone, Copy)]
enum Call {
    InjectContext,
    Inject,
    ExtractWithContext,
    Extract,
}

/// A call on the members of a composite.
#[derive(Clone, Copy)]
enum Whole {
    New,
    Join,
    Asked(Call),
}

/// The scenarios of a composite, and of one propagator.
const CALLS: [(&str, &str, Call); 4] = [
    (
        "composite-inject-context",
        "member-inject-context",
        Call::InjectContext,
    ),
    ("composite-inject", "member-inject", Call::Inject),
    (
        "composite-extract-with-context",
        "member-extract-with-context",
        Call::ExtractWithContext,
    ),
    ("composite-extract", "member-extract", Call::Extract),
];

pub fn play<R: Print>(alloc: Global, lines: &Lines<'_, R>) {
    if lines.begin("composite-new") {
        lines.end(of_two(alloc, lines, Whole::New));
    }
    if lines.begin("composite-join") {
        lines.end(of_two(alloc, lines, Whole::Join));
    }
    if lines.begin("composite-without-members") {
        lines.end(without_members(alloc, lines));
    }
    for (of_composite, of_member, call) in CALLS {
        if lines.begin(of_composite) {
            lines.end(of_two(alloc, lines, Whole::Asked(call)));
        }
        if lines.begin(of_member) {
            lines.end(of_one(alloc, lines, call));
        }
    }
}

/// Prints the number of fields of the composite, or the error.
fn made<R: Print>(lines: &Lines<'_, R>, answer: Result<TextMapCompositePropagator, AllocError>) {
    match answer {
        Ok(composite) => lines.answer(&composite.fields().count()),
        Err(error) => lines.answer(&error),
    }
}

/// Makes the propagators of the W3C headers, and this call on a composite of them. The names of
/// their fields are allocated.
fn of_two<R: Print>(alloc: Global, lines: &Lines<'_, R>, call: Whole) -> Result<(), AllocError> {
    let mut members: Vec<Box<dyn TextMapPropagator>> = Vec::new(alloc);
    members.push(Box::new(alloc, TraceContextPropagator::new(alloc)?)?)?;
    members.push(Box::new(alloc, BaggagePropagator::new(alloc)?)?)?;
    match call {
        Whole::New => {
            made(lines, TextMapCompositePropagator::new(alloc, members));
            Ok(())
        }
        Whole::Join => join(alloc, lines, members),
        Whole::Asked(call) => of_composite(alloc, lines, members, call),
    }
}

/// Joins a composite that has no members, and no room for one, with one of these.
fn join<R: Print>(
    alloc: Global,
    lines: &Lines<'_, R>,
    members: Vec<Box<dyn TextMapPropagator>>,
) -> Result<(), AllocError> {
    let first = TextMapCompositePropagator::new(alloc, Vec::new(alloc))?;
    let second = TextMapCompositePropagator::new(alloc, members)?;
    made(lines, first.join(alloc, second));
    Ok(())
}

/// Prints whether the extracted context has the span of the given one.
fn extracted<R: Print>(lines: &Lines<'_, R>, answer: Result<Context, PropagationError>) {
    match answer {
        Ok(context) => lines.answer(&context.has_active_span()),
        Err(error) => lines.answer(&error),
    }
}

/// A stack whose current context has a remote span.
fn stack(alloc: Global) -> Result<ContextStack, AllocError> {
    let mut stack = ContextStack::new(alloc)?;
    stack.push(with_remote_span(alloc, TraceState::NONE)?)?;
    Ok(stack)
}

fn of_composite<R: Print>(
    alloc: Global,
    lines: &Lines<'_, R>,
    members: Vec<Box<dyn TextMapPropagator>>,
    call: Call,
) -> Result<(), AllocError> {
    let composite = TextMapCompositePropagator::new(alloc, members)?;
    let stack = stack(alloc)?;
    asked(alloc, lines, &composite, &stack, call)
}

fn asked<R: Print>(
    alloc: Global,
    lines: &Lines<'_, R>,
    composite: &TextMapCompositePropagator,
    stack: &ContextStack,
    call: Call,
) -> Result<(), AllocError> {
    let context = stack.current();
    let mut carrier = carrier(alloc)?;
    match call {
        Call::InjectContext => {
            let answer = composite.inject_context(context, &mut carrier);
            injected(lines, answer, &carrier, &KEYS);
        }
        Call::Inject => {
            let answer = composite.inject(stack, &mut carrier);
            injected(lines, answer, &carrier, &KEYS);
        }
        Call::ExtractWithContext => {
            extracted(
                lines,
                composite.extract_with_context(alloc, context, &carrier),
            );
        }
        Call::Extract => extracted(lines, composite.extract(alloc, stack, &carrier)),
    }
    Ok(())
}

fn of_one<R: Print>(alloc: Global, lines: &Lines<'_, R>, call: Call) -> Result<(), AllocError> {
    let member = TraceContextPropagator::new(alloc)?;
    let stack = stack(alloc)?;
    asked_of_one(alloc, lines, &member, &stack, call)
}

fn asked_of_one<R: Print>(
    alloc: Global,
    lines: &Lines<'_, R>,
    member: &TraceContextPropagator,
    stack: &ContextStack,
    call: Call,
) -> Result<(), AllocError> {
    let context = stack.current();
    let mut carrier = carrier(alloc)?;
    match call {
        Call::InjectContext => {
            let answer = member.inject_context(context, &mut carrier);
            injected(lines, answer, &carrier, &TRACE_KEYS);
        }
        Call::Inject => {
            let answer = member.inject(stack, &mut carrier);
            injected(lines, answer, &carrier, &TRACE_KEYS);
        }
        Call::ExtractWithContext => {
            extracted(lines, member.extract_with_context(alloc, context, &carrier));
        }
        Call::Extract => extracted(lines, member.extract(alloc, stack, &carrier)),
    }
    Ok(())
}

/// Without members, nothing allocates.
fn without_members<R: Print>(alloc: Global, lines: &Lines<'_, R>) -> Result<(), AllocError> {
    let mut carrier = carrier(alloc)?;
    let composite = TextMapCompositePropagator::new(alloc, Vec::new(alloc))?;
    lines.free(
        "TextMapCompositePropagator::new",
        &composite.fields().count(),
    );
    let answer = composite.inject_context(&Context::new(), &mut carrier);
    lines.free_ok("TextMapCompositePropagator::inject_context", answer);
    lines.free_ok(
        "TextMapCompositePropagator::extract_with_context",
        composite.extract_with_context(alloc, &Context::new(), &carrier),
    );
    lines.receiver(&carrier.len());
    Ok(())
}
