//! Serves requests in many random orders in one process, and prints the orders that differ from the
//! plain model.
//!
//! Standard input has a line with a seed for each order. Standard output has a line for each order
//! that differs: its place, and what differed first. The last line is `done COUNT`.
#![tactic(auto)]

mod keeping;
mod orders;
mod plain;

use std::io::{self, BufWriter, Read, Write};

fn main(rt: HostRuntime) -> io::Result<()> {
    let alloc = rt.alloc();
    let given = io::read_to_string(alloc, rt.stdin())?;
    let mut lines = BufWriter::new(alloc, io::writer(&rt))?;
    let mut count = 0u32;
    for line in given.lines() {
        let wrong = match line.parse::<u64>() {
            Ok(seed) => orders::played(alloc, seed).unwrap_or("out of memory"),
            Err(_) => "no seed",
        };
        if !wrong.is_empty() {
            writeln!(lines, "{count} {wrong}")?;
        }
        count += 1;
    }
    writeln!(lines, "done {count}")?;
    lines.flush()
}
