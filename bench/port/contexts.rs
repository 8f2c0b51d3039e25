//! Operations on contexts.
use crate::operation::{Operation, Task, add, repeat};
use opentelemetry::context::ContextStack;
use opentelemetry::logs::AnyValue;
use opentelemetry::trace::{SpanContext, TraceState};
use opentelemetry::{Context, Key, SpanId, StringValue, TraceFlags, TraceId};
use std::alloc::{AllocError, Global};

pub fn play(task: &Task<'_>, alloc: Global) -> Result<Option<u64>, AllocError> {
    match task.name {
        "context_clone" => repeat(Copying(named(alloc)?), task.times),
        "context_clone_remote" => repeat(Copying(remote(alloc)?), task.times),
        "context_clone_current" => repeat(
            CopyingCurrent(stack_of(named(alloc)?, alloc)?),
            task.times,
        ),
        "context_get_oldest" => get(alloc, String::from_str(alloc, "name")?, task),
        "context_get_newest" => get(alloc, name_of(alloc, task.size.saturating_sub(1))?, task),
        "context_get_absent" => get(alloc, String::from_str(alloc, "number")?, task),
        "context_with_value" => {
            let context = with_entries(alloc, task.size)?;
            repeat(Deriving { alloc, context }, task.times)
        }
        "context_with_value_clone_get" => {
            let context = with_entries(alloc, task.size)?;
            repeat(DerivingAndGetting { alloc, context }, task.times)
        }
        _ => Ok(None),
    }
}

/// A context with the entry `name`.
#[inline(never)]
pub fn named(alloc: Global) -> Result<Context, AllocError> {
    let name = StringValue::from(String::from_str(alloc, "request-name")?);
    Context::new().with_value(alloc, Key::from("name"), AnyValue::String(name))
}

/// The same context with a remote span context, whose trace state has two pairs.
#[inline(never)]
pub fn remote(alloc: Global) -> Result<Context, AllocError> {
    let state = TraceState::from_str(alloc, "vendor=opaque-value,other@sys=1234").map_err(
        |_| AllocError,
    )?;
    let span_context = SpanContext::new(
        TraceId::from(1),
        SpanId::from(1),
        TraceFlags::SAMPLED,
        true,
        state,
    );
    named(alloc)?.with_remote_span_context(alloc, span_context)
}

/// A context with `size` entries, at least `name`.
#[inline(never)]
pub fn with_entries(alloc: Global, size: usize) -> Result<Context, AllocError> {
    let mut context = named(alloc)?;
    for number in 1..size {
        let key = Key::from(name_of(alloc, number)?);
        context = context.with_value(alloc, key, AnyValue::Int(1))?;
    }
    Ok(context)
}

/// The name of this entry besides `name`.
fn name_of(alloc: Global, number: usize) -> Result<String, AllocError> {
    format!(in alloc; "extra{number}")
}

/// A stack with this current context.
fn stack_of(context: Context, alloc: Global) -> Result<ContextStack, AllocError> {
    let mut stack = ContextStack::new(alloc)?;
    stack.push(context)?;
    Ok(stack)
}

fn get(alloc: Global, key: String, task: &Task<'_>) -> Result<Option<u64>, AllocError> {
    let context = with_entries(alloc, task.size)?;
    repeat(Getting { context, key }, task.times)
}

#[inline(never)]
fn clone_of(context: &Context) -> Result<Context, AllocError> {
    context.clone()
}

#[inline(never)]
fn current_of(stack: &ContextStack) -> Result<Context, AllocError> {
    stack.current().clone()
}

/// Uses a context before it is dropped.
#[inline(never)]
fn look_at(context: &Context, sum: &mut u64) {
    if context.is_telemetry_suppressed() {
        add(sum, 1);
    }
}

#[inline(never)]
fn look_up(context: &Context, key: &str, sum: &mut u64) {
    match context.get(key) {
        Some(AnyValue::String(text)) => add(sum, text.as_str().len()),
        Some(_) => add(sum, 1),
        None => {}
    }
}

#[inline(never)]
fn with_number(alloc: Global, context: &Context) -> Result<Context, AllocError> {
    context.with_value(alloc, Key::from("number"), AnyValue::Int(1))
}

#[derive(Drop)]
struct Copying(Context);

impl Operation for Copying {
    fn once(&mut self, sum: &mut u64) -> Result<(), AllocError> {
        let copy = clone_of(&self.0)?;
        look_at(&copy, sum);
        Ok(())
    }
}

#[derive(Drop)]
struct CopyingCurrent(ContextStack);

impl Operation for CopyingCurrent {
    fn once(&mut self, sum: &mut u64) -> Result<(), AllocError> {
        let copy = current_of(&self.0)?;
        look_at(&copy, sum);
        Ok(())
    }
}

#[derive(Drop)]
struct Getting {
    context: Context,
    key: String,
}

impl Operation for Getting {
    fn once(&mut self, sum: &mut u64) -> Result<(), AllocError> {
        look_up(&self.context, self.key.as_str(), sum);
        Ok(())
    }
}

#[derive(Drop)]
struct Deriving {
    alloc: Global,
    context: Context,
}

impl Operation for Deriving {
    fn once(&mut self, sum: &mut u64) -> Result<(), AllocError> {
        let more = with_number(self.alloc, &self.context)?;
        look_at(&more, sum);
        Ok(())
    }
}

/// One more entry, a clone, and a look-up in the clone.
#[derive(Drop)]
struct DerivingAndGetting {
    alloc: Global,
    context: Context,
}

impl Operation for DerivingAndGetting {
    fn once(&mut self, sum: &mut u64) -> Result<(), AllocError> {
        let more = with_number(self.alloc, &self.context)?;
        let copy = clone_of(&more)?;
        look_up(&copy, "number", sum);
        Ok(())
    }
}
