//! Carriers, propagators and composites of them.
mod b3;
pub mod carriers;
mod composites;
pub mod headers;
mod http;
mod runs;

use crate::lines::Lines;
use std::alloc::Global;

pub fn play<R: Print>(alloc: Global, lines: &Lines<'_, R>) {
    b3::play(alloc, lines);
    carriers::play(alloc, lines);
    composites::play(alloc, lines);
    headers::play(alloc, lines);
    http::play(alloc, lines);
    runs::play(alloc, lines);
}
