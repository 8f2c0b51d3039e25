//! Contexts and their stack.
mod attaches;
pub mod contexts;
mod stacks;

use crate::lines::Lines;
use std::alloc::Global;

pub fn play<R: Print>(alloc: Global, lines: &Lines<'_, R>) {
    contexts::play(alloc, lines);
    attaches::play(alloc, lines);
    stacks::play(alloc, lines);
}
