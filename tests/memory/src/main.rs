//! Scenarios for runs out of memory: each makes calls on fixed values, and prints their answers and
//! the state of their borrowed arguments.
//!
//! The name of a scenario is read from standard input; without a name, all scenarios run. Nothing
//! here allocates to print.
#![tactic(auto)]

mod context;
mod lines;
mod propagators;
mod sdk;
mod shown;
mod tracing;
mod values;

use lines::{Lines, ROOM, wanted};
use std::io;

fn main(rt: HostRuntime) -> io::Result<()> {
    let mut room = [0; ROOM];
    let lines = Lines::new(&rt, wanted(rt.stdin(), &mut room)?);
    let alloc = rt.alloc();
    values::play(alloc, &lines);
    context::play(alloc, &lines);
    propagators::play(alloc, &lines);
    tracing::play(alloc, &lines);
    sdk::play(rt, &lines);
    lines.written()
}
