//! Runs of random attaches and detaches, and an injection at their end, as the port's `carry::run`
//! does.
use crate::contexts::{named, remote};
use crate::injections::composite;
use crate::random::Random;
use crate::task::Task;
use opentelemetry::propagation::{TextMapCompositePropagator, TextMapPropagator};
use opentelemetry::{Context, ContextGuard};
use std::collections::HashMap;
use std::hint::black_box;

pub fn play(task: &Task<'_>) -> Option<u64> {
    let source = Source {
        named: named(),
        remote: remote(),
        size: task.size,
    };
    match task.name {
        "run_events" => {
            let composite = composite();
            task.repeat(|| {
                let mut carrier: HashMap<String, String> = HashMap::new();
                run(black_box(events(&source)), &composite, &mut carrier);
                1 + black_box(carrier).len()
            })
        }
        "run_make_events" => task.repeat(|| black_box(events(&source)).len()),
        _ => None,
    }
}

/// A source of events: their number, and the contexts of their attaches.
struct Source {
    named: Context,
    remote: Context,
    size: usize,
}

enum Event {
    Attach(Context),
    /// Detaches the context attached by attach number N, counted from 0.
    Detach(usize),
}

/// An attach; or, for an odd number and if there was an attach, the detach of any attach so far.
fn event(source: &Source, drawn: usize, attaches: usize) -> Event {
    if attaches > 0 && drawn % 2 == 1 {
        Event::Detach(drawn / 2 % attaches)
    } else if drawn % 4 == 0 {
        Event::Attach(black_box(&source.named).clone())
    } else {
        Event::Attach(black_box(&source.remote).clone())
    }
}

fn events(source: &Source) -> Vec<Event> {
    let mut random = Random::new();
    let mut events = Vec::new();
    let mut attaches = 0;
    for _ in 0..source.size {
        let event = event(source, random.next(), attaches);
        if matches!(event, Event::Attach(_)) {
            attaches += 1;
        }
        events.push(event);
    }
    events
}

/// Does the events in order, injects the context that is then current, and detaches the remaining
/// ones.
fn run(
    events: Vec<Event>,
    composite: &TextMapCompositePropagator,
    carrier: &mut HashMap<String, String>,
) {
    let mut guards: Vec<Option<ContextGuard>> = Vec::new();
    for event in events {
        match event {
            Event::Attach(context) => guards.push(Some(context.attach())),
            Event::Detach(number) => drop(guards.get_mut(number).and_then(Option::take)),
        }
    }
    composite.inject_context(&Context::current(), carrier);
    while let Some(guard) = guards.pop() {
        drop(guard);
    }
}
