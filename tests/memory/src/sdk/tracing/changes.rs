//! Changes to the current span.
use crate::context::contexts::remote;
use crate::lines::Lines;
use crate::sdk::tracing::exports::has_exported;
use crate::sdk::tracing::{App, app, builder, enter};
use opentelemetry::trace::{SpanBuilder, Status, TraceState, Tracing};
use opentelemetry::{Key, KeyValue, StringValue, Value};
use otel_sdk::trace::{Build, Exports};
use std::alloc::{AllocError, Global};

pub fn play<R: Print>(rt: HostRuntime, lines: &Lines<'_, R>) {
    for (name, call) in CALLS {
        if lines.begin(name) {
            lines.end(of_span(rt, lines, call));
        }
    }
    if lines.begin("tracing-set-status") {
        lines.end(set_status(rt, lines));
    }
    if lines.begin("tracing-without-span") {
        lines.end(without_span(rt, lines));
    }
    if lines.begin("tracing-disabled") {
        lines.end(disabled(rt, lines));
    }
}

/// A call that adds one part.
#[derive(Clone, Copy)]
enum Call {
    SetAttribute,
    AddEvent,
    AddLink,
    RecordError,
}

const CALLS: [(&str, Call); 4] = [
    ("tracing-set-attribute", Call::SetAttribute),
    ("tracing-add-event", Call::AddEvent),
    ("tracing-add-link", Call::AddLink),
    ("tracing-record-error", Call::RecordError),
];

fn attribute() -> KeyValue {
    KeyValue::new(Key::from("k"), Value::from("v"))
}

/// Makes this call on the current span.
fn add(alloc: Global, app: &mut impl Tracing, call: Call) -> Result<(), AllocError> {
    match call {
        Call::SetAttribute => app.set_attribute(attribute()),
        Call::AddEvent => app.add_event(StringValue::from("e"), Vec::new(alloc)),
        Call::AddLink => app.add_link(remote(1, TraceState::NONE), Vec::new(alloc)),
        Call::RecordError => app.record_error(&402),
    }
}

/// Makes this call in a span, which is exported later: with the part, or without it after an error.
fn of_span<R: Print>(rt: HostRuntime, lines: &Lines<'_, R>, call: Call) -> Result<(), AllocError> {
    let mut app = app(rt)?;
    enter(&mut app)?;
    let answer = add(rt.alloc(), &mut app, call);
    let parts = if answer.is_ok() { 1 } else { 0 };
    lines.answer_named("added", answer);
    lines.due(app.open_spans() == 1 && has_exported(&mut app, 1, parts));
    Ok(())
}

/// A new status and a new name, which take the place of the old ones.
fn set_status<R: Print>(rt: HostRuntime, lines: &Lines<'_, R>) -> Result<(), AllocError> {
    let mut app = app(rt)?;
    enter(&mut app)?;
    let status = Status::error(StringValue::from("x"));
    lines.free_ok("Tracing::set_status", app.set_status(status));
    let name = StringValue::from("renamed");
    lines.free_ok("Tracing::update_name", app.update_name(name));
    lines.due(app.open_spans() == 1 && has_exported(&mut app, 1, 0));
    Ok(())
}

fn without_span<R: Print>(rt: HostRuntime, lines: &Lines<'_, R>) -> Result<(), AllocError> {
    let mut app = app(rt)?;
    let answer = add(rt.alloc(), &mut app, Call::SetAttribute);
    lines.free_ok("Tracing::set_attribute", answer);
    let answer = add(rt.alloc(), &mut app, Call::AddEvent);
    lines.free_ok("Tracing::add_event", answer);
    let answer = add(rt.alloc(), &mut app, Call::AddLink);
    lines.free_ok("Tracing::add_link", answer);
    Ok(())
}

/// Each call of a disabled value that takes memory in others.
fn disabled<R: Print>(rt: HostRuntime, lines: &Lines<'_, R>) -> Result<(), AllocError> {
    let alloc = rt.alloc();
    let mut app = builder(rt).disabled().build(alloc, "cart")?;
    lines.free_ok("Tracing::enter", app.enter("s"));
    let builder = SpanBuilder::from_name(StringValue::from("s"));
    lines.free_ok("Tracing::enter_with", app.enter_with(builder));
    let answer = add(alloc, &mut app, Call::RecordError);
    lines.free_ok("Tracing::record_error", answer);
    let failed = app.try_in_span("s", |_: &mut App| -> Result<u8, u16> { Err(402) });
    lines.free_ok("Exports::flush", app.flush());
    lines.free_of("Exports::shutdown", app.shutdown());
    lines.due(failed == Err(402) && app.unrecorded() == 0);
    Ok(())
}
