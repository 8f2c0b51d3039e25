//! Rounds of many attaches, followed by the removal of each, by position: a vector of guards can't
//! be dropped.
use crate::contexts::named;
use crate::operation::{Operation, Task, repeat};
use crate::random::mixed;
use crate::stacks::{push_clone, push_empty, remove};
use opentelemetry::context::{Context, ContextStack};
use std::alloc::{AllocError, Global};

/// The order in which the attachments are removed.
#[derive(Drop)]
enum Removal {
    NewestFirst,
    OldestFirst,
    /// In the order of these numbers, 0 for the oldest.
    Mixed(Vec<usize>),
}

/// A round of attaches, of the empty context if none is given.
#[derive(Drop)]
struct Rounds {
    stack: ContextStack,
    positions: Vec<u16>,
    context: Option<Context>,
    size: usize,
    removal: Removal,
}

pub fn play(task: &Task<'_>, alloc: Global) -> Result<Option<u64>, AllocError> {
    let Some(removal) = removal_of(task, alloc)? else {
        return Ok(None);
    };
    let context = if task.name.ends_with("_cloned") {
        Some(named(alloc)?)
    } else {
        None
    };
    let rounds = Rounds {
        stack: ContextStack::new(alloc)?,
        positions: Vec::new(alloc),
        context,
        size: task.size,
        removal,
    };
    repeat(rounds, task.times)
}

fn removal_of(task: &Task<'_>, alloc: Global) -> Result<Option<Removal>, AllocError> {
    match task.name {
        "round_newest_empty" | "round_newest_cloned" => Ok(Some(Removal::NewestFirst)),
        "round_oldest_empty" | "round_oldest_cloned" => Ok(Some(Removal::OldestFirst)),
        "round_mixed_empty" | "round_mixed_cloned" => {
            Ok(Some(Removal::Mixed(mixed(alloc, task.size)?)))
        }
        _ => Ok(None),
    }
}

impl Operation for Rounds {
    fn once(&mut self, sum: &mut u64) -> Result<(), AllocError> {
        match &self.context {
            Some(context) => {
                push_all_clones(&mut self.stack, &mut self.positions, context, self.size)?
            }
            None => push_all_empty(&mut self.stack, &mut self.positions, self.size)?,
        }
        match &self.removal {
            Removal::NewestFirst => remove_newest(&mut self.stack, &mut self.positions, sum),
            Removal::OldestFirst => remove_oldest(&mut self.stack, &self.positions, sum),
            Removal::Mixed(order) => { remove_mixed(&mut self.stack, &self.positions, order, sum) }
        }
        self.positions.clear();
        Ok(())
    }
}

#[inline(never)]
fn push_all_empty(
    stack: &mut ContextStack,
    positions: &mut Vec<u16>,
    size: usize,
) -> Result<(), AllocError> {
    for _ in 0..size {
        let position = push_empty(stack)?;
        positions.push(position)?;
    }
    Ok(())
}

#[inline(never)]
fn push_all_clones(
    stack: &mut ContextStack,
    positions: &mut Vec<u16>,
    context: &Context,
    size: usize,
) -> Result<(), AllocError> {
    for _ in 0..size {
        let position = push_clone(stack, context)?;
        positions.push(position)?;
    }
    Ok(())
}

#[inline(never)]
fn remove_newest(stack: &mut ContextStack, positions: &mut Vec<u16>, sum: &mut u64) {
    for _ in 0..positions.len() {
        if let Some(position) = positions.pop() {
            remove(stack, position, sum);
        }
    }
}

#[inline(never)]
fn remove_oldest(stack: &mut ContextStack, positions: &Vec<u16>, sum: &mut u64) {
    for position in positions {
        remove(stack, *position, sum);
    }
}

#[inline(never)]
fn remove_mixed(stack: &mut ContextStack, positions: &Vec<u16>, order: &Vec<usize>, sum: &mut u64) {
    for number in order {
        if let Some(position) = positions.get(*number) {
            remove(stack, *position, sum);
        }
    }
}
