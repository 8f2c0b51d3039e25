//! The operations of the port's program, on the Rust crate: the same names, sizes and sums.
//!
//! Standard input is one line, `NAME TIMES SIZE`: the operation, how many times it is done, and the
//! size of its operand. The output is a number that depends on the results of the calls.

mod baggages;
mod contexts;
mod headers;
mod ids;
mod injections;
mod random;
mod rounds;
mod runs;
mod spans;
mod stacks;
mod states;
mod tables;
mod task;

use std::io::Read;
use task::Task;

/// The result of the operation with this name, if there is one.
fn play(task: &Task<'_>) -> Option<u64> {
    let (group, _) = task.name.split_once('_').unwrap_or((task.name, ""));
    match group {
        "context" => contexts::play(task),
        "attach" | "push" => stacks::play(task),
        "round" => rounds::play(task),
        "state" => states::play(task),
        "baggage" => baggages::play(task),
        "inject" => injections::play(task),
        "run" => runs::play(task),
        "id" => ids::play(task),
        "header" => headers::play(task),
        "span" => spans::play(task),
        "table" => tables::play(task),
        _ => None,
    }
}

fn main() -> std::io::Result<()> {
    let mut line = String::new();
    std::io::stdin().read_to_string(&mut line)?;
    match Task::read(line.trim_end()) {
        None => println!("NAME TIMES SIZE"),
        Some(task) => match play(&task) {
            Some(sum) => println!("{sum}"),
            None => println!("no such operation"),
        },
    }
    Ok(())
}
