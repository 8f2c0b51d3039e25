//! Runs of attaches and detaches, and their carriers.
use crate::context::contexts::remote;
use crate::lines::Lines;
use crate::propagators::carriers::{KEPT, carrier, holds, holds_beginning};
use opentelemetry::carry::{AttachOutcome, RunReport, StackEvent, run};
use opentelemetry::propagation::{PropagationError, TextMapCompositePropagator, TextMapPropagator};
use opentelemetry::trace::TraceState;
use opentelemetry::{Context, SpanId};
use otel_propagators::{BaggagePropagator, TraceContextPropagator};
use std::alloc::{AllocError, Global};
use std::collections::HashMap;

/// The keys of a carrier's texts after each pair is set, in this order.
const KEYS: [&str; 4] = [KEPT, "traceparent", "tracestate", "baggage"];

/// The number of attachments that fit into a new stack.
const ROOM: usize = 8;

/// The `traceparent` of each attach of a run, whose number, from 1, is both ids of its span.
const PARENTS: [&str; 12] = [
    "00-00000000000000000000000000000001-0000000000000001-01",
    "00-00000000000000000000000000000002-0000000000000002-01",
    "00-00000000000000000000000000000003-0000000000000003-01",
    "00-00000000000000000000000000000004-0000000000000004-01",
    "00-00000000000000000000000000000005-0000000000000005-01",
    "00-00000000000000000000000000000006-0000000000000006-01",
    "00-00000000000000000000000000000007-0000000000000007-01",
    "00-00000000000000000000000000000008-0000000000000008-01",
    "00-00000000000000000000000000000009-0000000000000009-01",
    "00-0000000000000000000000000000000a-000000000000000a-01",
    "00-0000000000000000000000000000000b-000000000000000b-01",
    "00-0000000000000000000000000000000c-000000000000000c-01",
];

pub fn play<R: Print>(alloc: Global, lines: &Lines<'_, R>) {
    if lines.begin("run-of-3-attaches") {
        lines.end(ran(alloc, lines, 3, &[]));
    }
    if lines.begin("run-of-12-attaches") {
        lines.end(ran(alloc, lines, 12, &[0, 8]));
    }
}

/// Runs this many attaches and then these detaches, with two members and a carrier with one text.
fn ran<R: Print>(
    alloc: Global,
    lines: &Lines<'_, R>,
    attaches: u64,
    detaches: &[usize],
) -> Result<(), AllocError> {
    let mut members: Vec<Box<dyn TextMapPropagator>> = Vec::new(alloc);
    members.push(Box::new(alloc, TraceContextPropagator::new(alloc)?)?)?;
    members.push(Box::new(alloc, BaggagePropagator::new(alloc)?)?)?;
    let composite = TextMapCompositePropagator::new(alloc, members)?;
    let mut carrier = carrier(alloc)?;
    let mut events = Vec::new(alloc);
    for number in 0..attaches {
        let span = remote(number + 1, TraceState::NONE);
        let context = Context::new().with_remote_span_context(alloc, span)?;
        events.push(StackEvent::Attach(context))?;
    }
    for number in detaches {
        events.push(StackEvent::Detach(*number))?;
    }
    let answer = run(alloc, events, &composite, &mut carrier);
    told(lines, answer, detaches, &carrier);
    Ok(())
}

/// Prints the result of the run, whether all attaches succeeded, the result of the injection, and
/// whether everything is as expected: after an error of the run, the carrier is unchanged.
fn told<R: Print>(
    lines: &Lines<'_, R>,
    answer: Result<RunReport, AllocError>,
    detaches: &[usize],
    carrier: &HashMap<String, String>,
) {
    match answer {
        Ok(report) => {
            lines.answer(&"ran");
            lines.answer_named("attached", found_memory(&report.outcomes));
            lines.answer_named("injected", report.injected);
            let current = current_of(&report.outcomes, detaches);
            lines.due(current.is_some_and(|it| is_due(&report, it, carrier)));
        }
        Err(error) => {
            for _ in 0..3 {
                lines.answer(&error);
            }
            lines.due(carrier.len() == 1 && holds(carrier, KEPT, "0"));
        }
    }
}

/// The error of an attach that was out of memory, if there is one.
fn found_memory(outcomes: &[AttachOutcome]) -> Result<(), AllocError> {
    for outcome in outcomes {
        if *outcome == AttachOutcome::NoMemory {
            return Err(AllocError);
        }
    }
    Ok(())
}

/// The number of the attach whose context must be current, if the outcomes are possible: each
/// attach has the next position, or is out of memory after the stack was full for the first time.
fn current_of(outcomes: &[AttachOutcome], detaches: &[usize]) -> Option<usize> {
    let mut current = None;
    let mut position = 0;
    for number in 0..outcomes.len() {
        match outcomes[number] {
            AttachOutcome::Attached(at) if at == position + 1 => position = at,
            AttachOutcome::NoMemory if number >= ROOM => continue,
            _ => return None,
        }
        if !detaches.contains(&number) {
            current = Some(number);
        }
    }
    current
}

/// Whether the context of the attach with this number is current and was injected or, after an
/// error, a prefix of its pairs.
fn is_due(report: &RunReport, number: usize, carrier: &HashMap<String, String>) -> bool {
    let is_as_answered = match report.injected {
        Ok(()) => carrier.len() == KEYS.len(),
        Err(PropagationError::Memory(_)) => carrier.len() < KEYS.len(),
        Err(PropagationError::Refused) => false,
    };
    is_as_answered
        && report.stack.current().span_context().span_id() == SpanId::from(number as u64 + 1)
        && holds(carrier, KEPT, "0")
        && holds_beginning(carrier, &KEYS)
        && (carrier.len() < 2 || holds(carrier, KEYS[1], PARENTS[number]))
        && (carrier.len() < 3 || holds(carrier, KEYS[2], ""))
        && (carrier.len() < 4 || holds(carrier, KEYS[3], ""))
}
