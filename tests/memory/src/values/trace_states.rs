//! Calls on trace states.
use crate::lines::Lines;
use crate::shown::{Show, answer_shown, free_shown};
use otel_ids::TraceState;
use std::alloc::{AllocError, Global};

const PAIRS: [(&str, &str); 2] = [("foo", ""), ("apple", "banana")];

pub fn play<R: Print>(alloc: Global, lines: &Lines<'_, R>) {
    if lines.begin("trace-state-from-str") {
        answer_shown(lines, TraceState::from_str(alloc, " a=1 ,,\tb=2"));
    }
    if lines.begin("trace-state-from-key-value") {
        answer_shown(lines, TraceState::from_key_value(alloc, &PAIRS));
    }
    play_of_states(alloc, lines);
}

fn play_of_states<R: Print>(alloc: Global, lines: &Lines<'_, R>) {
    for (name, text, call) in CALLS {
        if lines.begin(name) {
            lines.end(of_state(alloc, lines, text, call));
        }
    }
}

/// A call on a trace state.
#[derive(Clone, Copy)]
enum Call {
    Insert,
    Delete,
    Header,
    Faults,
    Looks,
}

/// The scenarios that start with the trace state of a text.
const CALLS: [(&str, &str, Call); 5] = [
    ("trace-state-insert", "a=1,b=2", Call::Insert),
    ("trace-state-delete", "a=1,b=2", Call::Delete),
    ("trace-state-header", "a=1,b=2", Call::Header),
    ("trace-state-faults", "a=1", Call::Faults),
    ("trace-state-looks", "a=1,b=2", Call::Looks),
];

/// Makes this call on the trace state of the text, which is valid.
fn of_state<R: Print>(
    alloc: Global,
    lines: &Lines<'_, R>,
    text: &str,
    call: Call,
) -> Result<(), AllocError> {
    match TraceState::from_str(alloc, text) {
        Ok(state) => {
            called(alloc, lines, &state, call);
            Ok(())
        }
        Err(_) => Err(AllocError),
    }
}

fn called<R: Print>(alloc: Global, lines: &Lines<'_, R>, state: &TraceState, call: Call) {
    match call {
        Call::Insert => answer_shown(lines, state.insert(alloc, "b", "3")),
        Call::Delete => answer_shown(lines, state.delete(alloc, "a")),
        Call::Header => header(alloc, lines, state),
        Call::Faults => faults(alloc, lines, state),
        Call::Looks => looks(alloc, lines, state),
    }
    lines.receiver(&Show(state));
}

fn header<R: Print>(alloc: Global, lines: &Lines<'_, R>, state: &TraceState) {
    lines.answer_of(state.header(alloc));
    lines.answer_of(state.header_delimited(alloc, ":", ";"));
}

fn faults<R: Print>(alloc: Global, lines: &Lines<'_, R>, state: &TraceState) {
    answer_shown(lines, TraceState::from_str(alloc, "a=1,b"));
    answer_shown(lines, state.insert(alloc, "A", "1"));
    answer_shown(lines, state.insert(alloc, "b", "="));
}

fn is_none(state: &TraceState) -> bool {
    *state == TraceState::NONE
}

/// Reads a text that consists of blanks, which doesn't allocate.
fn blanks<R: Print>(alloc: Global, lines: &Lines<'_, R>) {
    match TraceState::from_str(alloc, " ,\t, ") {
        Ok(empty) => lines.free("TraceState::from_str", &is_none(&empty)),
        Err(error) => lines.free("TraceState::from_str", &error),
    }
}

/// Look-ups, and a clone, which shares the list.
fn looks<R: Print>(alloc: Global, lines: &Lines<'_, R>, state: &TraceState) {
    lines.free("TraceState::get", &state.get("b").unwrap_or("none"));
    lines.free("TraceState::iter", &state.iter().len());
    lines.free("TraceState::eq", &is_none(state));
    blanks(alloc, lines);
    free_shown(lines, "TraceState::clone", state.clone());
}
