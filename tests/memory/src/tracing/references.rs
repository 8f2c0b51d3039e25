//! Calls on the span of a context, which a table may have.
use crate::lines::Lines;
use crate::tracing::spans::{Call, attribute, hold_two, shown, span};
use crate::values::scopes::attributes;
use opentelemetry::context::Context;
use opentelemetry::trace::{Span, SpanContext, SpanRef, Spans, Status};
use opentelemetry::{KeyValue, StringValue};
use otel_examples::recording::RecordingSpan;
use std::alloc::{AllocError, Global};

/// The scenarios, and the calls.
const CALLS: [(&str, &str, Call); 6] = [
    ("span-ref-add-event", "SpanRef::add_event", Call::AddEvent),
    (
        "span-ref-add-event-with-timestamp",
        "SpanRef::add_event_with_timestamp",
        Call::AddEventWithTimestamp,
    ),
    ("span-ref-add-link", "SpanRef::add_link", Call::AddLink),
    (
        "span-ref-record-error",
        "SpanRef::record_error",
        Call::RecordError,
    ),
    (
        "span-ref-set-attribute",
        "SpanRef::set_attribute",
        Call::SetAttribute,
    ),
    (
        "span-ref-set-attributes",
        "SpanRef::set_attributes",
        Call::SetAttributes,
    ),
];

pub fn play<R: Print>(alloc: Global, lines: &Lines<'_, R>) {
    for (name, _, call) in CALLS {
        if lines.begin(name) {
            lines.end(of_held(alloc, lines, call));
        }
    }
    if lines.begin("span-ref-without-span") {
        without_span(alloc, lines);
    }
}

fn make<S: Span>(
    alloc: Global,
    span: &mut SpanRef<'_, S>,
    attributes: Vec<KeyValue>,
    call: Call,
) -> Result<(), AllocError> {
    let name = StringValue::from("e");
    match call {
        Call::AddEvent => span.add_event(alloc, name, attributes, 1),
        Call::AddEventWithTimestamp => span.add_event_with_timestamp(alloc, name, 1, attributes),
        Call::AddLink => span.add_link(alloc, SpanContext::NONE, attributes),
        Call::RecordError => span.record_error(alloc, &"boom", 1),
        Call::SetAttribute => span.set_attribute(alloc, attribute()),
        Call::SetAttributes => span.set_attributes(alloc, attributes),
    }
}

/// Makes this call on the span of the context.
fn make_by<S: Span>(
    alloc: Global,
    context: &Context,
    spans: &mut Spans<S>,
    attributes: Vec<KeyValue>,
    call: Call,
) -> Result<(), AllocError> {
    let mut span = context.span(spans);
    make(alloc, &mut span, attributes, call)
}

/// The context of a span that is inserted into the table.
fn held(
    alloc: Global,
    spans: &mut Spans<RecordingSpan>,
    call: Call,
) -> Result<Context, AllocError> {
    let mut span = span(alloc);
    hold_two(alloc, &mut span, call)?;
    match Context::new().with_span(alloc, spans, span) {
        Ok(context) => Ok(context),
        Err(_) => Err(AllocError),
    }
}

fn of_held<R: Print>(alloc: Global, lines: &Lines<'_, R>, call: Call) -> Result<(), AllocError> {
    let attributes = attributes(alloc)?;
    let mut spans = Spans::new(alloc);
    let context = held(alloc, &mut spans, call)?;
    let answer = make_by(alloc, &context, &mut spans, attributes, call);
    if let Some(span) = spans.get(0) {
        shown(lines, answer, span, call);
    }
    Ok(())
}

/// Each call on the span of a context without a span.
fn without_span<R: Print>(alloc: Global, lines: &Lines<'_, R>) {
    let mut spans: Spans<RecordingSpan> = Spans::new(alloc);
    let context = Context::new();
    for (_, name, call) in CALLS {
        let answer = make_by(alloc, &context, &mut spans, Vec::new(alloc), call);
        lines.free_ok(name, answer);
    }
    others(lines, &context, &mut spans);
}

fn others<R: Print, S: Span>(lines: &Lines<'_, R>, context: &Context, spans: &mut Spans<S>) {
    let mut span = context.span(spans);
    span.set_status(Status::Ok);
    span.update_name(StringValue::from("n"));
    span.end(1);
    lines.free("SpanRef::is_recording", &span.is_recording());
    lines.free("SpanRef::span_context", &span.span_context().is_valid());
}
