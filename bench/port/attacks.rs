//! Long texts and runs of little use, as an attacker would send them.
use crate::injections::{composite, let_go};
use crate::operation::{Operation, Task, add, repeat};
use opentelemetry::Context;
use opentelemetry::carry::{self, StackEvent};
use opentelemetry::propagation::{TextMapCompositePropagator, TextMapPropagator};
use opentelemetry::trace::TraceState;
use otel_propagators::BaggagePropagator;
use std::alloc::{AllocError, Global};
use std::collections::HashMap;

pub fn play(task: &Task<'_>, alloc: Global) -> Result<Option<u64>, AllocError> {
    let size = task.size;
    match task.name {
        "attack_state_blanks" => read(alloc, "a=1", " ", task),
        "attack_state_equals" => read(alloc, "a", "=", task),
        "attack_state_key" => read(alloc, "a=1,", "k", task),
        "attack_detaches" => {
            let detaching = Detaching {
                alloc,
                composite: composite(alloc)?,
                size,
            };
            repeat(detaching, task.times)
        }
        "attack_baggage_commas" => extract(alloc, long(alloc, "a=1", ",", size)?, task.times),
        "attack_baggage_key" => extract(alloc, long(alloc, "a=1,", "k", size)?, task.times),
        "attack_baggage_long_key" => {
            let mut text = long(alloc, "a=1,", "k", size)?;
            text.push_str("=1")?;
            extract(alloc, text, task.times)
        }
        "attack_baggage_percents" => {
            let text = long(alloc, "a=1", ",b c=%%%%%%%%", size)?;
            extract(alloc, text, task.times)
        }
        "attack_baggage_pairs" => extract(alloc, pairs(alloc, size)?, task.times),
        _ => Ok(None),
    }
}

/// A text that starts with `begin`, followed by one part many times.
fn long(alloc: Global, begin: &str, part: &str, size: usize) -> Result<String, AllocError> {
    let mut text = String::from_str(alloc, begin)?;
    let more = part.repeat(alloc, size)?;
    text.push_str(more.as_str())?;
    Ok(text)
}

/// Reads a text that starts with a given text, followed by one sign many times, as a trace state.
fn read(
    alloc: Global,
    begin: &str,
    sign: &str,
    task: &Task<'_>,
) -> Result<Option<u64>, AllocError> {
    let text = long(alloc, begin, sign, task.size)?;
    repeat(Reading { alloc, text }, task.times)
}

/// Adds the number of pairs of the state, or 7 if the text can't be read.
#[inline(never)]
fn read_state(alloc: Global, text: &str, sum: &mut u64) {
    match TraceState::from_str(alloc, text) {
        Ok(state) => add(sum, state.iter().len()),
        Err(_) => add(sum, 7),
    }
}

#[derive(Drop)]
struct Reading {
    alloc: Global,
    text: String,
}

impl Operation for Reading {
    fn once(&mut self, sum: &mut u64) -> Result<(), AllocError> {
        read_state(self.alloc, self.text.as_str(), sum);
        Ok(())
    }
}

/// A header with `size` pairs, each with its own key.
#[inline(never)]
fn pairs(alloc: Global, size: usize) -> Result<String, AllocError> {
    let mut text = String::new(alloc);
    for number in 0..size {
        let pair = format!(in alloc; "key{number}=v,")?;
        text.push_str(pair.as_str())?;
    }
    Ok(text)
}

/// Extracts the baggage of the header.
pub fn extract(alloc: Global, text: String, times: u64) -> Result<Option<u64>, AllocError> {
    let mut carrier = HashMap::new(alloc);
    carrier.insert(String::from_str(alloc, "baggage")?, text)?;
    let propagator = BaggagePropagator::new(alloc)?;
    let extracting = Extracting {
        alloc,
        propagator,
        carrier,
    };
    repeat(extracting, times)
}

/// Adds the number of members of the extracted baggage, or 7 if there is none.
#[inline(never)]
fn extract_baggage(
    alloc: Global,
    propagator: &BaggagePropagator,
    carrier: &HashMap<String, String>,
    sum: &mut u64,
) {
    match propagator.extract_with_context(alloc, &Context::new(), carrier) {
        Ok(context) => match context.baggage() {
            Some(baggage) => add(sum, baggage.len()),
            None => add(sum, 7),
        },
        Err(_) => add(sum, 7),
    }
}

#[derive(Drop)]
struct Extracting {
    alloc: Global,
    propagator: BaggagePropagator,
    carrier: HashMap<String, String>,
}

impl Operation for Extracting {
    fn once(&mut self, sum: &mut u64) -> Result<(), AllocError> {
        extract_baggage(self.alloc, &self.propagator, &self.carrier, sum);
        Ok(())
    }
}

/// An attach, and `size` detaches of numbers that are never attached.
#[inline(never)]
fn unknown_detaches(alloc: Global, size: usize) -> Result<Vec<StackEvent>, AllocError> {
    let mut events = Vec::with_capacity(alloc, size.saturating_add(1))?;
    events.push(StackEvent::Attach(Context::new()))?;
    for number in 0..size {
        events.push(StackEvent::Detach(number.saturating_add(1)))?;
    }
    Ok(events)
}

/// A run of these events. Making them is part of it, since a run takes them by value.
#[derive(Drop)]
struct Detaching {
    alloc: Global,
    composite: TextMapCompositePropagator,
    size: usize,
}

impl Operation for Detaching {
    fn once(&mut self, sum: &mut u64) -> Result<(), AllocError> {
        let events = unknown_detaches(self.alloc, self.size)?;
        let mut carrier = HashMap::new(self.alloc);
        let report = carry::run(self.alloc, events, &self.composite, &mut carrier)?;
        add(sum, report.outcomes.len());
        let_go(carrier, sum);
        Ok(())
    }
}
