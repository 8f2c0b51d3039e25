//! Runs of random attaches and detaches, and an injection at their end.
use crate::contexts::{named, remote};
use crate::injections::{composite, let_go};
use crate::operation::{Operation, Task, add, repeat};
use crate::random::Random;
use opentelemetry::Context;
use opentelemetry::carry::{self, RunReport, StackEvent};
use opentelemetry::propagation::TextMapCompositePropagator;
use std::alloc::{AllocError, Global};
use std::collections::HashMap;

pub fn play(task: &Task<'_>, alloc: Global) -> Result<Option<u64>, AllocError> {
    match task.name {
        "run_events" => run(source_of(alloc, task.size)?, task.times),
        "run_make_events" => repeat(Making(source_of(alloc, task.size)?), task.times),
        _ => Ok(None),
    }
}

fn run(source: Source, times: u64) -> Result<Option<u64>, AllocError> {
    let composite = composite(source.alloc)?;
    repeat(Running { source, composite }, times)
}

/// A source of events: their number, and the contexts of their attaches.
#[derive(Drop)]
struct Source {
    alloc: Global,
    named: Context,
    remote: Context,
    size: usize,
}

fn source_of(alloc: Global, size: usize) -> Result<Source, AllocError> {
    let named = named(alloc)?;
    let remote = remote(alloc)?;
    Ok(Source {
        alloc,
        named,
        remote,
        size,
    })
}

/// Attaches; or, for an odd number and if there was an attach, the detach of any attach so far.
#[inline(never)]
fn events(source: &Source) -> Result<Vec<StackEvent>, AllocError> {
    let mut random = Random::new();
    let mut events = Vec::new(source.alloc);
    let mut attaches = 0usize;
    for _ in 0..source.size {
        let drawn = random.next();
        if attaches > 0 && drawn % 2 == 1 {
            events.push(StackEvent::Detach(drawn / 2 % attaches))?;
        } else {
            let context = if drawn % 4 == 0 { &source.named } else { &source.remote };
            events.push(StackEvent::Attach(context.clone()?))?;
            attaches = attaches.wrapping_add(1);
        }
    }
    Ok(events)
}

#[inline(never)]
fn let_go_events(events: Vec<StackEvent>, sum: &mut u64) {
    add(sum, events.len());
}

#[inline(never)]
fn let_go_report(report: RunReport, sum: &mut u64) {
    if report.injected.is_ok() {
        add(sum, 1);
    }
}

/// A run of all events. Making them is part of it, since a run takes them by value.
#[derive(Drop)]
struct Running {
    source: Source,
    composite: TextMapCompositePropagator,
}

impl Operation for Running {
    fn once(&mut self, sum: &mut u64) -> Result<(), AllocError> {
        let events = events(&self.source)?;
        let mut carrier = HashMap::new(self.source.alloc);
        let report = carry::run(self.source.alloc, events, &self.composite, &mut carrier)?;
        let_go_report(report, sum);
        let_go(carrier, sum);
        Ok(())
    }
}

/// The part of a run that makes and drops its events.
#[derive(Drop)]
struct Making(Source);

impl Operation for Making {
    fn once(&mut self, sum: &mut u64) -> Result<(), AllocError> {
        let_go_events(events(&self.0)?, sum);
        Ok(())
    }
}
