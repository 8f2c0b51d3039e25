//! The calls that rows make.
use crate::fault::Fault;
use crate::row::{Answer, Row};
use crate::{baggages, carriers, ids, scopes, trace_states, values};
use opentelemetry::InstrumentationScope;
use opentelemetry::baggage::Baggage;
use opentelemetry::trace::TraceState;
use std::alloc::Global;
use std::collections::HashMap;

/// The value that indented rows act on.
#[derive(Drop)]
pub enum Subject {
    None,
    State(TraceState),
    Baggage(Baggage),
    Carrier(carriers::Carrier),
    Scope(InstrumentationScope),
}

/// The answer of the row's call. A row that isn't indented makes a new value for the indented rows
/// below it, or none.
pub fn answer(alloc: Global, row: &Row, subject: &mut Subject) -> Result<Answer, Fault> {
    if row.is_indented {
        return act(alloc, row, subject);
    }
    *subject = Subject::None;
    let (answer, made) = open(alloc, row)?;
    *subject = made;
    Ok(answer)
}

fn act(alloc: Global, row: &Row, subject: &mut Subject) -> Result<Answer, Fault> {
    let call = row.call.as_str();
    let arguments = row.arguments.as_slice();
    match subject {
        Subject::None => Err(Fault::NoValue),
        Subject::State(state) => trace_states::act(alloc, state, call, arguments),
        Subject::Baggage(baggage) => baggages::act(alloc, baggage, call, arguments),
        Subject::Carrier(carrier) => carriers::act(alloc, carrier, call, arguments),
        Subject::Scope(scope) => scopes::act(alloc, scope, call, arguments),
    }
}

/// The answer, and the value that the call makes for the rows below it.
fn open(alloc: Global, row: &Row) -> Result<(Answer, Subject), Fault> {
    let arguments = row.arguments.as_slice();
    match row.call.as_str() {
        "TraceState::from_str" => Ok(of_state(trace_states::from_str(alloc, arguments)?)),
        "TraceState::from_key_value" => {
            Ok(of_state(trace_states::from_key_value(alloc, arguments)?))
        }
        "InstrumentationScope" => made(alloc, Subject::Scope(scopes::scope(alloc, arguments)?)),
        "Baggage::from_key_values" => {
            Ok(of_baggage(baggages::from_key_values(alloc, arguments)?))
        }
        "Baggage::from_key_values_with_metadata" => {
            Ok(of_baggage(baggages::from_key_values_with_metadata(alloc, arguments)?))
        }
        "Baggage::new" | "HashMap::new" if !arguments.is_empty() => Err(Fault::Arguments),
        "Baggage::new" => made(alloc, Subject::Baggage(Baggage::new(alloc))),
        "HashMap::new" => made(alloc, Subject::Carrier(HashMap::new(alloc))),
        _ => Ok((alone(alloc, row)?, Subject::None)),
    }
}

/// The value, with the answer `ok`.
fn made(alloc: Global, subject: Subject) -> Result<(Answer, Subject), Fault> {
    Ok((Answer::of_word(alloc, "ok")?, subject))
}

fn of_state(made: trace_states::Made) -> (Answer, Subject) {
    match made {
        (answer, Some(state)) => (answer, Subject::State(state)),
        (answer, None) => (answer, Subject::None),
    }
}

fn of_baggage(made: baggages::Made) -> (Answer, Subject) {
    let (answer, baggage) = made;
    (answer, Subject::Baggage(baggage))
}

/// The answer of a call that makes no value for the rows below it.
fn alone(alloc: Global, row: &Row) -> Result<Answer, Fault> {
    let arguments = row.arguments.as_slice();
    match row.call.as_str() {
        "TraceStateError::to_string" => trace_states::error_text(alloc, arguments),
        "TraceId::from_hex" => ids::trace_id_from_hex(alloc, arguments),
        "TraceId::from" => ids::trace_id_from(alloc, arguments),
        "SpanId::from_hex" => ids::span_id_from_hex(alloc, arguments),
        "SpanId::from" => ids::span_id_from(alloc, arguments),
        "TraceFlags::new" => ids::flags(alloc, arguments),
        "BaggageMetadata::new" => baggages::metadata(alloc, arguments),
        "Severity::name" => values::severity_name(alloc, arguments),
        call => values::printed(alloc, call, arguments),
    }
}
