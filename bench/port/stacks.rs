//! Single attaches, each removed immediately.
use crate::contexts::{named, remote};
use crate::operation::{Operation, Task, add, repeat};
use opentelemetry::context::{Context, ContextGuard, ContextStack};
use std::alloc::{AllocError, Global};

pub fn play(task: &Task<'_>, alloc: Global) -> Result<Option<u64>, AllocError> {
    match task.name {
        "attach_empty" => repeat(AttachingEmpty(stack_of(alloc, task.size)?), task.times),
        "attach_cloned" => attach_clones(task, alloc, named(alloc)?),
        "attach_remote" => attach_clones(task, alloc, remote(alloc)?),
        "push_empty" => repeat(PushingEmpty(stack_of(alloc, task.size)?), task.times),
        "push_cloned" => push_clones(task, alloc, named(alloc)?),
        "push_remote" => push_clones(task, alloc, remote(alloc)?),
        _ => Ok(None),
    }
}

fn attach_clones(
    task: &Task<'_>,
    alloc: Global,
    context: Context,
) -> Result<Option<u64>, AllocError> {
    let stack = stack_of(alloc, task.size)?;
    repeat(AttachingClones { stack, context }, task.times)
}

fn push_clones(
    task: &Task<'_>,
    alloc: Global,
    context: Context,
) -> Result<Option<u64>, AllocError> {
    let stack = stack_of(alloc, task.size)?;
    repeat(PushingClones { stack, context }, task.times)
}

/// A stack with `size` attachments of the empty context.
#[inline(never)]
fn stack_of(alloc: Global, size: usize) -> Result<ContextStack, AllocError> {
    let mut stack = ContextStack::new(alloc)?;
    for _ in 0..size {
        push_empty(&mut stack)?;
    }
    Ok(stack)
}

#[inline(never)]
fn attach_empty(stack: &mut ContextStack) -> Result<ContextGuard, AllocError> {
    stack.attach(Context::new())
}

#[inline(never)]
fn attach_clone(stack: &mut ContextStack, context: &Context) -> Result<ContextGuard, AllocError> {
    stack.attach(context.clone()?)
}

#[inline(never)]
fn detach(stack: &mut ContextStack, guard: ContextGuard, sum: &mut u64) {
    if stack.detach(guard).is_some() {
        add(sum, 1);
    }
}

#[inline(never)]
pub fn push_empty(stack: &mut ContextStack) -> Result<u16, AllocError> {
    stack.push(Context::new())
}

#[inline(never)]
pub fn push_clone(stack: &mut ContextStack, context: &Context) -> Result<u16, AllocError> {
    stack.push(context.clone()?)
}

#[inline(never)]
pub fn remove(stack: &mut ContextStack, position: u16, sum: &mut u64) {
    if stack.pop_id(position).is_some() {
        add(sum, 1);
    }
}

#[derive(Drop)]
struct AttachingEmpty(ContextStack);

impl Operation for AttachingEmpty {
    fn once(&mut self, sum: &mut u64) -> Result<(), AllocError> {
        let guard = attach_empty(&mut self.0)?;
        detach(&mut self.0, guard, sum);
        Ok(())
    }
}

#[derive(Drop)]
struct AttachingClones {
    stack: ContextStack,
    context: Context,
}

impl Operation for AttachingClones {
    fn once(&mut self, sum: &mut u64) -> Result<(), AllocError> {
        let guard = attach_clone(&mut self.stack, &self.context)?;
        detach(&mut self.stack, guard, sum);
        Ok(())
    }
}

#[derive(Drop)]
struct PushingEmpty(ContextStack);

impl Operation for PushingEmpty {
    fn once(&mut self, sum: &mut u64) -> Result<(), AllocError> {
        let position = push_empty(&mut self.0)?;
        remove(&mut self.0, position, sum);
        Ok(())
    }
}

#[derive(Drop)]
struct PushingClones {
    stack: ContextStack,
    context: Context,
}

impl Operation for PushingClones {
    fn once(&mut self, sum: &mut u64) -> Result<(), AllocError> {
        let position = push_clone(&mut self.stack, &self.context)?;
        remove(&mut self.stack, position, sum);
        Ok(())
    }
}
