//! Texts, values, scopes, trace states, baggage, and values in Protocol Buffers.
mod baggages;
mod protos;
pub mod scopes;
mod texts;
mod trace_states;

use crate::lines::Lines;
use std::alloc::Global;

pub fn play<R: Print>(alloc: Global, lines: &Lines<'_, R>) {
    trace_states::play(alloc, lines);
    texts::play(alloc, lines);
    scopes::play(alloc, lines);
    baggages::play(alloc, lines);
    protos::play(alloc, lines);
}
