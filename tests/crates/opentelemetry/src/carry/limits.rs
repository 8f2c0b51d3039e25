//! The greatest position, one below, at and above, with a run.
use opentelemetry::carry::{AttachOutcome, RunReport, StackEvent, run};
use opentelemetry::context::Context;
use opentelemetry::propagation::TextMapCompositePropagator;
use std::alloc::{AllocError, Global};
use std::collections::HashMap;
use std::test::Fail;

fn attaches(alloc: Global, count: usize) -> Result<RunReport, AllocError> {
    let mut events = Vec::new(alloc);
    for _ in 0..count {
        events.push(StackEvent::Attach(Context::new()))?;
    }
    let composite = TextMapCompositePropagator::new(alloc, Vec::new(alloc))?;
    let mut carrier: HashMap<String, String> = HashMap::new(alloc);
    run(alloc, events, &composite, &mut carrier)
}

/// The number of attaches, the outcome of the last one, and the newest position afterwards.
const ATTACHES: &[(usize, AttachOutcome, u16)] = &[
    (65533, AttachOutcome::Attached(65533), 65533),
    (65534, AttachOutcome::Attached(65534), 65534),
    (65535, AttachOutcome::Full, 65534),
    (65536, AttachOutcome::Full, 65534),
];

#[test]
fn the_last_position_is_given_by_a_run(rt: HostRuntime) -> Result<(), Fail> {
    for (count, last, newest) in ATTACHES {
        let report = attaches(rt.alloc(), *count)?;
        assert_eq!(rt; report.outcomes.len(), *count);
        assert!(rt;
            report.outcomes.as_slice().last() == Some(last),
            "of {count}"
        );
        assert_eq!(rt; report.stack.newest_position(), *newest, "of {count}");
    }
    Ok(())
}

/// Detaches of numbers that are never attached change nothing, however large the number.
#[test]
fn detaches_of_unknown_numbers_change_nothing(rt: HostRuntime) -> Result<(), Fail> {
    let alloc = rt.alloc();
    let mut events = Vec::new(alloc);
    events.push(StackEvent::Attach(Context::new()))?;
    for number in [1, 2, 65534, 65535, 65536, usize::MAX - 1, usize::MAX] {
        events.push(StackEvent::Detach(number))?;
    }
    events.push(StackEvent::Attach(Context::new()))?;
    let composite = TextMapCompositePropagator::new(alloc, Vec::new(alloc))?;
    let mut carrier: HashMap<String, String> = HashMap::new(alloc);
    let report = run(alloc, events, &composite, &mut carrier)?;
    assert_eq!(rt; report.outcomes.len(), 2);
    assert!(rt; report.outcomes.as_slice().last() == Some(&AttachOutcome::Attached(2)));
    assert_eq!(rt; report.stack.newest_position(), 2);
    Ok(())
}
