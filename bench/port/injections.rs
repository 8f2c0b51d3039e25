//! Injections with a composite of two members: one for a context's name, and one for its trace
//! state.
use crate::contexts::remote;
use crate::name_member::NameMember;
use crate::operation::{Operation, Task, add, repeat};
use crate::state_member::StateMember;
use opentelemetry::Context;
use opentelemetry::propagation::{TextMapCompositePropagator, TextMapPropagator};
use std::alloc::{AllocError, Global};
use std::collections::HashMap;

pub fn play(task: &Task<'_>, alloc: Global) -> Result<Option<u64>, AllocError> {
    let context = remote(alloc)?;
    let composite = composite(alloc)?;
    match task.name {
        "inject_fresh_map" => {
            let fresh = FreshMap {
                alloc,
                composite,
                context,
            };
            repeat(fresh, task.times)
        }
        "inject_same_map" => {
            let same = SameMap {
                composite,
                context,
                carrier: HashMap::new(alloc),
            };
            repeat(same, task.times)
        }
        _ => Ok(None),
    }
}

#[inline(never)]
pub fn composite(alloc: Global) -> Result<TextMapCompositePropagator, AllocError> {
    let mut members: Vec<Box<dyn TextMapPropagator>> = Vec::new(alloc);
    members.push(Box::new(alloc, NameMember::new(alloc)?)?)?;
    members.push(Box::new(alloc, StateMember::new(alloc)?)?)?;
    TextMapCompositePropagator::new(alloc, members)
}

#[inline(never)]
fn inject(
    composite: &TextMapCompositePropagator,
    context: &Context,
    carrier: &mut HashMap<String, String>,
    sum: &mut u64,
) {
    if composite.inject_context(context, carrier).is_ok() {
        add(sum, 1);
    }
}

#[inline(never)]
pub fn let_go(carrier: HashMap<String, String>, sum: &mut u64) {
    add(sum, carrier.len());
}

#[derive(Drop)]
struct FreshMap {
    alloc: Global,
    composite: TextMapCompositePropagator,
    context: Context,
}

impl Operation for FreshMap {
    fn once(&mut self, sum: &mut u64) -> Result<(), AllocError> {
        let mut carrier = HashMap::new(self.alloc);
        inject(&self.composite, &self.context, &mut carrier, sum);
        let_go(carrier, sum);
        Ok(())
    }
}

#[derive(Drop)]
struct SameMap {
    composite: TextMapCompositePropagator,
    context: Context,
    carrier: HashMap<String, String>,
}

impl Operation for SameMap {
    fn once(&mut self, sum: &mut u64) -> Result<(), AllocError> {
        inject(&self.composite, &self.context, &mut self.carrier, sum);
        Ok(())
    }
}
