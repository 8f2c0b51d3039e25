//! Operations on trace states.
use crate::operation::{Operation, Task, add, repeat};
use opentelemetry::trace::TraceState;
use std::alloc::{AllocError, Global};

pub fn play(task: &Task<'_>, alloc: Global) -> Result<Option<u64>, AllocError> {
    match task.name {
        "state_read" => {
            let text = text(alloc, task.size)?;
            repeat(Reading { alloc, text }, task.times)
        }
        "state_read_alike" => {
            let text = alike(alloc, task.size)?;
            repeat(Reading { alloc, text }, task.times)
        }
        "state_read_header" => {
            let text = text(alloc, task.size)?;
            repeat(ReadingAndPrinting { alloc, text }, task.times)
        }
        _ => play_on(task, alloc, state_of(alloc, task.size)?),
    }
}

/// The operations on an existing state.
fn play_on(task: &Task<'_>, alloc: Global, state: TraceState) -> Result<Option<u64>, AllocError> {
    match task.name {
        "state_header" => repeat(Printing { alloc, state }, task.times),
        "state_clone" => repeat(Copying(state), task.times),
        "state_get_last" => get(alloc, state, task),
        "state_insert" => repeat(Inserting { alloc, state }, task.times),
        "state_delete" => repeat(Deleting { alloc, state }, task.times),
        _ => Ok(None),
    }
}

fn get(alloc: Global, state: TraceState, task: &Task<'_>) -> Result<Option<u64>, AllocError> {
    let key = format!(in alloc; "key{}", task.size.saturating_sub(1))?;
    repeat(Getting { state, key }, task.times)
}

fn state_of(alloc: Global, size: usize) -> Result<TraceState, AllocError> {
    let text = text(alloc, size)?;
    read(alloc, text.as_str())
}

/// Pairs `key0=value0` and so on.
#[inline(never)]
fn text(alloc: Global, size: usize) -> Result<String, AllocError> {
    let mut text = String::new(alloc);
    for number in 0..size {
        if number > 0 {
            text.push_str(",")?;
        }
        let pair = format!(in alloc; "key{number}=value{number}")?;
        text.push_str(pair.as_str())?;
    }
    Ok(text)
}

/// The last bytes of keys that only differ in these.
const LAST: &str = "abcdefghijklmnopqrstuvwxyz0123456789";

/// Pairs `xx..xa=value0` and so on, whose keys have 256 bytes and only differ in the last one.
#[inline(never)]
fn alike(alloc: Global, size: usize) -> Result<String, AllocError> {
    let front = "x".repeat(alloc, 255)?;
    let mut text = String::new(alloc);
    for (number, last) in LAST.chars().take(size).enumerate() {
        if number > 0 {
            text.push_str(",")?;
        }
        let pair = format!(in alloc; "{front}{last}=value{number}")?;
        text.push_str(pair.as_str())?;
    }
    Ok(text)
}

#[inline(never)]
fn read(alloc: Global, text: &str) -> Result<TraceState, AllocError> {
    TraceState::from_str(alloc, text).map_err(|_| AllocError)
}

#[inline(never)]
fn let_go(state: TraceState) {
    drop(state);
}

#[inline(never)]
fn print(alloc: Global, state: &TraceState, sum: &mut u64) -> Result<(), AllocError> {
    let text = state.header(alloc)?;
    add(sum, text.len());
    Ok(())
}

#[inline(never)]
fn clone_of(state: &TraceState) -> Result<TraceState, AllocError> {
    state.clone()
}

#[inline(never)]
fn look_up(state: &TraceState, key: &str, sum: &mut u64) {
    if let Some(value) = state.get(key) {
        add(sum, value.len());
    }
}

#[inline(never)]
fn inserted(alloc: Global, state: &TraceState) -> Result<TraceState, AllocError> {
    state.insert(alloc, "key5", "other").map_err(|_| AllocError)
}

#[inline(never)]
fn deleted(alloc: Global, state: &TraceState) -> Result<TraceState, AllocError> {
    state.delete(alloc, "key5").map_err(|_| AllocError)
}

#[derive(Drop)]
struct Reading {
    alloc: Global,
    text: String,
}

impl Operation for Reading {
    fn once(&mut self, _sum: &mut u64) -> Result<(), AllocError> {
        let_go(read(self.alloc, self.text.as_str())?);
        Ok(())
    }
}

#[derive(Drop)]
struct ReadingAndPrinting {
    alloc: Global,
    text: String,
}

impl Operation for ReadingAndPrinting {
    fn once(&mut self, sum: &mut u64) -> Result<(), AllocError> {
        let state = read(self.alloc, self.text.as_str())?;
        print(self.alloc, &state, sum)?;
        let_go(state);
        Ok(())
    }
}

#[derive(Drop)]
struct Printing {
    alloc: Global,
    state: TraceState,
}

impl Operation for Printing {
    fn once(&mut self, sum: &mut u64) -> Result<(), AllocError> {
        print(self.alloc, &self.state, sum)
    }
}

#[derive(Drop)]
struct Copying(TraceState);

impl Operation for Copying {
    fn once(&mut self, _sum: &mut u64) -> Result<(), AllocError> {
        let_go(clone_of(&self.0)?);
        Ok(())
    }
}

#[derive(Drop)]
struct Getting {
    state: TraceState,
    key: String,
}

impl Operation for Getting {
    fn once(&mut self, sum: &mut u64) -> Result<(), AllocError> {
        look_up(&self.state, self.key.as_str(), sum);
        Ok(())
    }
}

#[derive(Drop)]
struct Inserting {
    alloc: Global,
    state: TraceState,
}

impl Operation for Inserting {
    fn once(&mut self, _sum: &mut u64) -> Result<(), AllocError> {
        let_go(inserted(self.alloc, &self.state)?);
        Ok(())
    }
}

#[derive(Drop)]
struct Deleting {
    alloc: Global,
    state: TraceState,
}

impl Operation for Deleting {
    fn once(&mut self, _sum: &mut u64) -> Result<(), AllocError> {
        let_go(deleted(self.alloc, &self.state)?);
        Ok(())
    }
}
