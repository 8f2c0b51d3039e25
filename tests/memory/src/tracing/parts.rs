//! Copies of the parts of spans.
use crate::lines::Lines;
use crate::values::scopes::attributes;
use opentelemetry::StringValue;
use opentelemetry::trace::{Event, Link, SpanBuilder, SpanContext, Status};
use std::alloc::{AllocError, Global};

pub fn play<R: Print>(alloc: Global, lines: &Lines<'_, R>) {
    if lines.begin("status-clone") {
        lines.end(status_clone(alloc, lines));
    }
    if lines.begin("event-clone") {
        lines.end(event_clone(alloc, lines));
    }
    if lines.begin("link-clone") {
        lines.end(link_clone(alloc, lines));
    }
    if lines.begin("span-builder-clone") {
        lines.end(builder_clone(alloc, lines));
    }
    if lines.begin("span-builder-with-attribute") {
        lines.end(builder_with_attribute(alloc, lines));
    }
}

/// An owned text, whose clone allocates.
fn text(alloc: Global) -> Result<StringValue, AllocError> {
    let text = String::from_str(alloc, "t")?;
    Ok(StringValue::from(text))
}

fn status_clone<R: Print>(alloc: Global, lines: &Lines<'_, R>) -> Result<(), AllocError> {
    let status = Status::error(text(alloc)?);
    lines.cloned(&status);
    lines.free("Status::eq", &(status == Status::Ok));
    Ok(())
}

/// An event with attributes.
fn event(alloc: Global) -> Result<Event, AllocError> {
    let attributes = attributes(alloc)?;
    Ok(Event::new(text(alloc)?, 1, attributes, 0))
}

fn event_clone<R: Print>(alloc: Global, lines: &Lines<'_, R>) -> Result<(), AllocError> {
    let event = event(alloc)?;
    lines.cloned(&event);
    lines.receiver(&event.name);
    Ok(())
}

fn link_clone<R: Print>(alloc: Global, lines: &Lines<'_, R>) -> Result<(), AllocError> {
    let attributes = attributes(alloc)?;
    let link = Link::new(SpanContext::NONE, attributes, 0);
    lines.cloned(&link);
    lines.receiver(&link.attributes.len());
    Ok(())
}

/// A builder with an owned name and attributes.
fn builder(alloc: Global) -> Result<SpanBuilder, AllocError> {
    let attributes = attributes(alloc)?;
    Ok(SpanBuilder::from_name(text(alloc)?).with_attributes(attributes))
}

fn builder_clone<R: Print>(alloc: Global, lines: &Lines<'_, R>) -> Result<(), AllocError> {
    let builder = builder(alloc)?;
    lines.answer_named("a copy", builder.clone());
    lines.receiver(&builder.name);
    Ok(())
}

fn builder_with_attribute<R: Print>(alloc: Global, lines: &Lines<'_, R>) -> Result<(), AllocError> {
    let builder = SpanBuilder::from_name(text(alloc)?);
    let answer = builder.with_attribute(alloc, "k", "v");
    lines.answer_named("a builder", answer);
    Ok(())
}
