//! Operations of the libraries, each done many times, to count the instructions of one.
//!
//! Standard input is one line, `NAME TIMES SIZE`: the operation, how many times it is done, and the
//! size of its operand. The output is a number that depends on the results of the calls.
#![tactic(auto)]

mod attacks;
mod baggages;
mod contexts;
mod headers;
mod held;
mod https;
mod ids;
mod injections;
mod lines;
mod lives;
mod name_member;
mod operation;
mod pictures;
mod random;
mod requests;
mod rounds;
mod runs;
mod sdk;
mod spans;
mod stacks;
mod state_member;
mod states;
mod tables;

use operation::Task;
use std::alloc::AllocError;
use std::io::{self, Read};

/// The maximum length of the line that is read.
const ROOM: usize = 128;

/// The result of the operation with this name, if there is one.
fn play(task: &Task<'_>, rt: HostRuntime) -> Result<Option<u64>, AllocError> {
    let alloc = rt.alloc();
    let (group, _) = task.name.split_once('_').unwrap_or((task.name, ""));
    match group {
        "context" => contexts::play(task, alloc),
        "attach" | "push" => stacks::play(task, alloc),
        "attack" => attacks::play(task, alloc),
        "round" => rounds::play(task, alloc),
        "state" => states::play(task, alloc),
        "baggage" => baggages::play(task, alloc),
        "inject" => injections::play(task, alloc),
        "run" => runs::play(task, alloc),
        "sdk" => sdk::play(task, alloc, rt),
        "otlp" => requests::play(task, alloc, rt),
        "held" => held::play(task, alloc, rt),
        "line" => lines::play(task, alloc, rt),
        "live" => lives::play(task, alloc, rt),
        "http" => https::play(task, alloc),
        "picture" => pictures::play(task, alloc, rt),
        "id" => ids::play(task, alloc),
        "header" => headers::play(task, alloc),
        "span" => spans::play(task, alloc),
        "table" => tables::play(task, alloc),
        _ => Ok(None),
    }
}

fn main(rt: HostRuntime) -> io::Result<()> {
    let mut room = [0u8; ROOM];
    let count = rt.stdin().read(&mut room)?;
    let line = str::from_utf8(&room[..count]).unwrap_or("").trim_end();
    let Some(task) = Task::read(line) else {
        return rt.println("NAME TIMES SIZE");
    };
    match play(&task, rt)? {
        Some(sum) => println!(rt; "{sum}"),
        None => rt.println("no such operation"),
    }
}
