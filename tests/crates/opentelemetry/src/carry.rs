//! Whole runs.
mod limits;

use crate::members::{RefusingMember, assert_held, stamps_of};
use opentelemetry::Key;
use opentelemetry::carry::{AttachOutcome, RunReport, StackEvent, run};
use opentelemetry::context::Context;
use opentelemetry::logs::AnyValue;
use opentelemetry::propagation::{PropagationError, TextMapCompositePropagator, TextMapPropagator};
use std::alloc::{AllocError, Global};
use std::collections::HashMap;
use std::process::Abort;
use std::test::Fail;

/// A context whose entry `name` is this letter.
fn named(alloc: Global, name: u8) -> Result<Context, AllocError> {
    Context::new().with_value(alloc, Key::from("name"), AnyValue::Int(name as i64))
}

/// The entry `name` of the report's current context, or 0.
fn current_of(report: &RunReport) -> i64 {
    match report.stack.current().get("name") {
        Some(AnyValue::Int(name)) => *name,
        _ => 0,
    }
}

/// Each letter attaches a context with that name, and each digit detaches the attach with that
/// number.
fn run_steps(alloc: Global, steps: &str) -> Result<RunReport, AllocError> {
    let mut events = Vec::new(alloc);
    for step in steps.as_bytes() {
        let event = match *step {
            b'0'..=b'9' => StackEvent::Detach((*step - b'0') as usize),
            name => StackEvent::Attach(named(alloc, name)?),
        };
        events.push(event)?;
    }
    let composite = TextMapCompositePropagator::new(alloc, Vec::new(alloc))?;
    let mut carrier: HashMap<String, String> = HashMap::new(alloc);
    run(alloc, events, &composite, &mut carrier)
}

/// Whether the outcomes are `Attached` at the positions in these digits.
fn are_attached(outcomes: &[AttachOutcome], positions: &str) -> bool {
    let mut position = positions.as_bytes().iter();
    for outcome in outcomes {
        match (outcome, position.next()) {
            (AttachOutcome::Attached(at), Some(digit))
                if *digit >= b'0' && *at == (*digit - b'0') as u16 => {}
            _ => return false,
        }
    }
    position.next().is_none()
}

/// The steps, the positions of the attaches, the name of the current context afterwards, and the
/// newest position.
const RUNS: &[(&str, &str, u8, u16)] = &[
    ("abc1", "123", b'c', 3),
    ("abc12", "123", b'a', 1),
    ("abc12d", "1232", b'd', 2),
    ("abc12d1", "1232", b'd', 2),
    ("0", "", 0, 0),
    ("0a", "1", b'a', 1),
    ("ab0", "12", b'b', 2),
    ("ab01", "12", 0, 0),
    ("", "", 0, 0),
    ("a0b0", "11", b'b', 1),
    ("a9", "1", b'a', 1),
];

/// Asserts that an injection without members was `Ok`, the name of the report's current context,
/// and the newest position.
fn assert_stands(rt: &impl Abort, report: &RunReport, current: u8, newest: u16) {
    assert_eq!(rt; report.injected, Ok(()));
    assert_eq!(rt; current_of(report), current as i64);
    assert_eq!(rt; report.stack.newest_position(), newest);
}

#[test]
fn worked_runs_have_these_outcomes(rt: HostRuntime) -> Result<(), Fail> {
    for (steps, positions, current, newest) in RUNS {
        let report = run_steps(rt.alloc(), steps)?;
        assert!(rt;
            are_attached(report.outcomes.as_slice(), positions),
            "{steps}"
        );
        assert_stands(&rt, &report, *current, *newest);
    }
    Ok(())
}

/// Attaches up to the limit and one more, then detaches the numbers below `detached`, and attaches
/// one more if requested.
fn run_to_the_limit(
    alloc: Global,
    detached: usize,
    attaches_again: bool,
) -> Result<RunReport, AllocError> {
    let old = named(alloc, b'o')?;
    let mut events = Vec::new(alloc);
    for _ in 0..65533 {
        events.push(StackEvent::Attach(old.clone()?))?;
    }
    events.push(StackEvent::Attach(named(alloc, b'l')?))?;
    events.push(StackEvent::Attach(named(alloc, b'r')?))?;
    for number in 0..detached {
        events.push(StackEvent::Detach(number))?;
    }
    if attaches_again {
        events.push(StackEvent::Attach(named(alloc, b'n')?))?;
    }
    let composite = TextMapCompositePropagator::new(alloc, Vec::new(alloc))?;
    let mut carrier: HashMap<String, String> = HashMap::new(alloc);
    run(alloc, events, &composite, &mut carrier)
}

/// The number of leading outcomes that are `Attached` at the positions from 1 on.
fn attached_in_order(outcomes: &[AttachOutcome]) -> u16 {
    let mut position: u16 = 0;
    for outcome in outcomes {
        if position == 65535 || *outcome != AttachOutcome::Attached(position + 1) {
            return position;
        }
        position += 1;
    }
    position
}

/// Asserts that all positions were used, that the next attach was refused, and the outcome of an
/// attach after the detaches.
fn assert_limit(rt: &impl Abort, outcomes: &[AttachOutcome], again: Option<AttachOutcome>) {
    assert_eq!(rt; outcomes.len(), if again.is_some() { 65536 } else { 65535 });
    assert_eq!(rt; attached_in_order(outcomes), 65534);
    assert_eq!(rt; outcomes.get(65534).copied(), Some(AttachOutcome::Full));
    assert_eq!(rt; outcomes.get(65535).copied(), again);
}

/// The number of detaches, the outcome of one more attach, if there is one, and the current context
/// at the end: the base if all are detached.
const LIMITS: &[(usize, Option<AttachOutcome>, u8, u16)] = &[
    (0, None, b'l', 65534),
    (0, Some(AttachOutcome::Full), b'l', 65534),
    (65533, Some(AttachOutcome::Full), b'l', 65534),
    (65534, None, 0, 0),
    (65534, Some(AttachOutcome::Attached(1)), b'n', 1),
];

#[test]
fn positions_run_out_and_come_back(rt: HostRuntime) -> Result<(), Fail> {
    for (detached, again, current, newest) in LIMITS {
        let report = run_to_the_limit(rt.alloc(), *detached, again.is_some())?;
        assert_limit(&rt, report.outcomes.as_slice(), *again);
        assert_stands(&rt, &report, *current, *newest);
    }
    Ok(())
}

/// Runs without events on a carrier that contains `Kept`, and asserts the injected texts.
fn assert_run(
    rt: &impl Abort,
    alloc: Global,
    composite: &TextMapCompositePropagator,
    injected: Result<(), PropagationError>,
    pairs: &[(&str, &str)],
) -> Result<(), Fail> {
    let mut carrier: HashMap<String, String> = HashMap::new(alloc);
    let kept = String::from_str(alloc, "Kept")?;
    carrier.insert(kept, String::from_str(alloc, "0")?)?;
    let report = run(alloc, Vec::new(alloc), composite, &mut carrier)?;
    assert!(rt; report.injected == injected);
    assert_eq!(rt; carrier.len(), pairs.len());
    assert_held(rt, &carrier, pairs);
    Ok(())
}

#[test]
fn a_run_injects_what_its_members_set(rt: HostRuntime) -> Result<(), Fail> {
    let alloc = rt.alloc();
    let mut members: Vec<Box<dyn TextMapPropagator>> = Vec::new(alloc);
    members.push(Box::new(alloc, stamps_of(alloc, &[("X", "1"), ("x", "3")])?)?)?;
    members.push(Box::new(alloc, stamps_of(alloc, &[("y", "2")])?)?)?;
    let composite = TextMapCompositePropagator::new(alloc, members)?;
    let pairs = &[("Kept", "0"), ("x", "3"), ("y", "2")];
    assert_run(&rt, alloc, &composite, Ok(()), pairs)
}

#[test]
fn a_run_without_members_leaves_the_carrier(rt: HostRuntime) -> Result<(), Fail> {
    let alloc = rt.alloc();
    let composite = TextMapCompositePropagator::new(alloc, Vec::new(alloc))?;
    assert_run(&rt, alloc, &composite, Ok(()), &[("Kept", "0")])
}

#[test]
fn a_run_reports_what_a_member_refused(rt: HostRuntime) -> Result<(), Fail> {
    let alloc = rt.alloc();
    let mut members: Vec<Box<dyn TextMapPropagator>> = Vec::new(alloc);
    members.push(Box::new(alloc, stamps_of(alloc, &[("X", "3")])?)?)?;
    members.push(Box::new(alloc, RefusingMember)?)?;
    members.push(Box::new(alloc, stamps_of(alloc, &[("y", "2")])?)?)?;
    let composite = TextMapCompositePropagator::new(alloc, members)?;
    let refused = Err(PropagationError::Refused);
    assert_run(
        &rt,
        alloc,
        &composite,
        refused,
        &[("Kept", "0"), ("x", "3")],
    )
}
