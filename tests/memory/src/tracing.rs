//! Spans, tracers and logs.
mod active;
mod bridge;
mod in_span;
mod local;
mod logs;
mod noop;
mod parts;
mod references;
mod spans;
mod tracers;

use crate::lines::Lines;
use std::alloc::Global;

pub fn play<R: Print>(alloc: Global, lines: &Lines<'_, R>) {
    parts::play(alloc, lines);
    spans::play(alloc, lines);
    references::play(alloc, lines);
    active::play(alloc, lines);
    tracers::play(alloc, lines);
    in_span::play(alloc, lines);
    local::play(alloc, lines);
    logs::play(alloc, lines);
    noop::play(alloc, lines);
    bridge::play(alloc, lines);
}
