//! Spans with limits.
use crate::lines::Lines;
use opentelemetry::trace::{Span, SpanContext, SpanId, SpanKind, Status};
use opentelemetry::{InstrumentationScope, Key, KeyValue, StringValue, Value};
use otel_sdk::trace::{SdkSpan, SpanData, SpanEvents, SpanLimits, SpanLinks};
use std::alloc::{AllocError, Global};
use std::rc::Rc;

pub fn play<R: Print>(alloc: Global, lines: &Lines<'_, R>) {
    if lines.begin("sdk-span-new") {
        lines.end(new(alloc, lines));
    }
    if lines.begin("sdk-span-set-attribute") {
        lines.end(set_attribute(alloc, lines));
    }
    if lines.begin("sdk-span-add-event") {
        lines.end(add_event(alloc, lines));
    }
    if lines.begin("sdk-span-add-link") {
        lines.end(add_link(alloc, lines));
    }
    if lines.begin("sdk-span-without-data") {
        without_data(alloc, lines);
    }
}

/// An attribute whose text is longer than a limit of one character.
fn attribute() -> KeyValue {
    KeyValue::new(Key::from("k"), Value::from("long"))
}

fn attributes(alloc: Global) -> Result<Vec<KeyValue>, AllocError> {
    let mut attributes = Vec::new(alloc);
    attributes.push(attribute())?;
    Ok(attributes)
}

/// The initial data of a span with these attributes, without events and links.
pub fn given(alloc: Global, attributes: Vec<KeyValue>) -> Result<SpanData, AllocError> {
    let scope = InstrumentationScope::builder(StringValue::from("s")).build(alloc)?;
    Ok(SpanData {
        span_context: SpanContext::NONE,
        parent_span_id: SpanId::INVALID,
        parent_span_is_remote: false,
        span_kind: SpanKind::Internal,
        name: StringValue::from("work"),
        start_time: 1,
        end_time: 1,
        attributes,
        dropped_attributes_count: 0,
        events: SpanEvents {
            events: Vec::new(alloc),
            dropped_count: 0,
        },
        links: SpanLinks {
            links: Vec::new(alloc),
            dropped_count: 0,
        },
        status: Status::Unset,
        instrumentation_scope: Rc::new(alloc, scope)?,
    })
}

fn limits() -> SpanLimits {
    SpanLimits {
        max_attribute_length: Some(1),
        ..SpanLimits::default()
    }
}

/// A span without attributes, events and links.
fn span(alloc: Global) -> Result<SdkSpan, AllocError> {
    SdkSpan::new(alloc, given(alloc, Vec::new(alloc))?, limits())
}

/// The number of attributes, events and links of the span.
fn held(span: &SdkSpan) -> usize {
    match span.data() {
        Some(data) => { data.attributes.len() + data.events.events.len() + data.links.links.len() }
        None => 0,
    }
}

fn new<R: Print>(alloc: Global, lines: &Lines<'_, R>) -> Result<(), AllocError> {
    let given = given(alloc, attributes(alloc)?)?;
    lines.answer_of(SdkSpan::new(alloc, given, limits()).map(|span| held(&span)));
    Ok(())
}

fn set_attribute<R: Print>(alloc: Global, lines: &Lines<'_, R>) -> Result<(), AllocError> {
    let mut span = span(alloc)?;
    let answer = span.set_attribute(alloc, attribute());
    let due = if answer.is_ok() { 1 } else { 0 };
    lines.answer_named("set", answer);
    lines.due(held(&span) == due);
    Ok(())
}

fn add_event<R: Print>(alloc: Global, lines: &Lines<'_, R>) -> Result<(), AllocError> {
    let mut span = span(alloc)?;
    let attributes = attributes(alloc)?;
    let answer = span.add_event_with_timestamp(alloc, StringValue::from("e"), 2, attributes);
    let due = if answer.is_ok() { 1 } else { 0 };
    lines.answer_named("added", answer);
    lines.due(held(&span) == due);
    Ok(())
}

fn add_link<R: Print>(alloc: Global, lines: &Lines<'_, R>) -> Result<(), AllocError> {
    let mut span = span(alloc)?;
    let answer = span.add_link(alloc, SpanContext::NONE, attributes(alloc)?);
    let due = if answer.is_ok() { 1 } else { 0 };
    lines.answer_named("added", answer);
    lines.due(held(&span) == due);
    Ok(())
}

fn without_data<R: Print>(alloc: Global, lines: &Lines<'_, R>) {
    let mut span = SdkSpan::without_data(SpanContext::NONE);
    let answer = span.set_attribute(alloc, attribute());
    lines.free_ok("SdkSpan::set_attribute", answer);
    let name = StringValue::from("e");
    let answer = span.add_event_with_timestamp(alloc, name, 2, Vec::new(alloc));
    lines.free_ok("SdkSpan::add_event_with_timestamp", answer);
    let answer = span.add_link(alloc, SpanContext::NONE, Vec::new(alloc));
    lines.free_ok("SdkSpan::add_link", answer);
}
