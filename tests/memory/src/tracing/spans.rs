//! Calls on a span.
use crate::lines::Lines;
use crate::values::scopes::attributes;
use opentelemetry::trace::{Span, SpanContext};
use opentelemetry::{Key, KeyValue, StringValue, Value};
use otel_examples::recording::RecordingSpan;
use std::alloc::{AllocError, Global};

/// A call.
#[derive(Clone, Copy, PartialEq)]
pub enum Call {
    AddEvent,
    AddEventWithTimestamp,
    AddLink,
    RecordError,
    SetAttribute,
    SetAttributes,
}

/// The scenarios.
const CALLS: [(&str, Call); 6] = [
    ("span-add-event", Call::AddEvent),
    ("span-add-event-with-timestamp", Call::AddEventWithTimestamp),
    ("span-add-link", Call::AddLink),
    ("span-record-error", Call::RecordError),
    ("span-set-attribute", Call::SetAttribute),
    ("span-set-attributes", Call::SetAttributes),
];

/// A number of attributes for which a span allocates more than once.
const MANY: usize = 3;

/// The number of attributes of the span before the call, which leaves room for two more.
const BEFORE: usize = 2;

pub fn play<R: Print>(alloc: Global, lines: &Lines<'_, R>) {
    for (name, call) in CALLS {
        if lines.begin(name) {
            lines.end(of_span(alloc, lines, call));
        }
    }
}

/// An attribute that doesn't allocate.
pub fn attribute() -> KeyValue {
    KeyValue::new(Key::from("k"), Value::Bool(true))
}

/// A span without any data.
pub fn span(alloc: Global) -> RecordingSpan {
    RecordingSpan::new(alloc, SpanContext::NONE, StringValue::from("s"))
}

fn make(
    alloc: Global,
    span: &mut RecordingSpan,
    attributes: Vec<KeyValue>,
    call: Call,
) -> Result<(), AllocError> {
    let name = StringValue::from("e");
    match call {
        Call::AddEvent => span.add_event(alloc, name, attributes, 1),
        Call::AddEventWithTimestamp => span.add_event_with_timestamp(alloc, name, 1, attributes),
        Call::AddLink => span.add_link(alloc, SpanContext::NONE, attributes),
        Call::RecordError => span.record_error(alloc, &"boom", 1),
        Call::SetAttribute => span.set_attribute(alloc, attribute()),
        Call::SetAttributes => span.set_attributes(alloc, attributes),
    }
}

/// Gives a span two attributes, so that the third of three more needs more room.
pub fn hold_two(alloc: Global, span: &mut RecordingSpan, call: Call) -> Result<(), AllocError> {
    if call == Call::SetAttributes {
        for _ in 0..BEFORE {
            span.set_attribute(alloc, attribute())?;
        }
    }
    Ok(())
}

/// Prints the answer, and whether the span has exactly this data or, after an error, a prefix of
/// it.
pub fn shown<R: Print>(
    lines: &Lines<'_, R>,
    answer: Result<(), AllocError>,
    span: &RecordingSpan,
    call: Call,
) {
    let len = span.effects().len();
    let is_due = match (call == Call::SetAttributes, answer.is_ok()) {
        (true, true) => len == BEFORE + MANY,
        (true, false) => BEFORE <= len && len < BEFORE + MANY,
        (false, true) => len == 1,
        (false, false) => len == 0,
    };
    lines.answer_named("kept", answer);
    lines.due(is_due);
}

fn of_span<R: Print>(alloc: Global, lines: &Lines<'_, R>, call: Call) -> Result<(), AllocError> {
    let attributes = attributes(alloc)?;
    let mut span = span(alloc);
    hold_two(alloc, &mut span, call)?;
    let answer = make(alloc, &mut span, attributes, call);
    shown(lines, answer, &span, call);
    Ok(())
}
