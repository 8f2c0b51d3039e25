//! Injection by the members of a composite, in order.
use crate::members::{
    RefusingMember, assert_held, carrier_refusing_after, composite_of, stamps_of,
};
use opentelemetry::context::{Context, ContextStack};
use opentelemetry::propagation::{PropagationError, TextMapCompositePropagator, TextMapPropagator};
use std::alloc::Global;
use std::collections::HashMap;
use std::process::Abort;
use std::test::Fail;
use test_support::held;

/// The number of texts after which a carrier refuses one, whether it was reached, and the texts of
/// the carrier.
struct Refusal {
    before: usize,
    is_refused: bool,
    len: usize,
    held: &'static [(&'static str, &'static str)],
}

/// For `x`, `y` and `x` again.
const REFUSALS: &[Refusal] = &[
    Refusal {
        before: 0,
        is_refused: true,
        len: 0,
        held: &[("x", "none"), ("y", "none")],
    },
    Refusal {
        before: 1,
        is_refused: true,
        len: 1,
        held: &[("x", "1"), ("y", "none")],
    },
    Refusal {
        before: 2,
        is_refused: true,
        len: 2,
        held: &[("x", "1"), ("y", "2")],
    },
    Refusal {
        before: 3,
        is_refused: false,
        len: 2,
        held: &[("x", "3"), ("y", "2")],
    },
];

/// Injects, and asserts the result and the texts of the carrier.
fn assert_refusal(
    rt: &impl Abort,
    alloc: Global,
    composite: &TextMapCompositePropagator,
    refusal: &Refusal,
) {
    let mut carrier = carrier_refusing_after(alloc, refusal.before);
    let answer = composite.inject_context(&Context::new(), &mut carrier);
    assert_eq!(rt;
        answer == Err(PropagationError::Refused),
        refusal.is_refused
    );
    assert_eq!(rt; answer.is_ok(), !refusal.is_refused);
    assert_eq!(rt; carrier.has_refused, refusal.is_refused);
    assert_eq!(rt; carrier.texts.len(), refusal.len);
    assert_held(rt, &carrier.texts, refusal.held);
}

#[test]
fn a_carrier_refuses_one_text(rt: HostRuntime) -> Result<(), Fail> {
    let alloc = rt.alloc();
    let mut members: Vec<Box<dyn TextMapPropagator>> = Vec::new(alloc);
    for pair in [("x", "1"), ("y", "2"), ("X", "3")] {
        members.push(Box::new(alloc, stamps_of(alloc, &[pair])?)?)?;
    }
    let composite = TextMapCompositePropagator::new(alloc, members)?;
    for refusal in REFUSALS {
        assert_refusal(&rt, alloc, &composite, refusal);
    }
    Ok(())
}

#[test]
fn the_pairs_of_a_member_stop_at_a_refusal(rt: HostRuntime) -> Result<(), Fail> {
    let alloc = rt.alloc();
    let mut members: Vec<Box<dyn TextMapPropagator>> = Vec::new(alloc);
    members.push(Box::new(alloc, stamps_of(alloc, &[("x", "1")])?)?)?;
    members.push(Box::new(alloc, stamps_of(alloc, &[("y", "2"), ("z", "3")])?)?)?;
    let composite = TextMapCompositePropagator::new(alloc, members)?;
    let mut carrier = carrier_refusing_after(alloc, 2);
    let answer = composite.inject_context(&Context::new(), &mut carrier);
    assert!(rt; answer == Err(PropagationError::Refused));
    assert_eq!(rt; carrier.texts.len(), 2);
    assert_held(&rt, &carrier.texts, &[("x", "1"), ("y", "2")]);
    Ok(())
}

#[test]
fn a_member_refuses_between_two(rt: HostRuntime) -> Result<(), Fail> {
    let alloc = rt.alloc();
    let mut members: Vec<Box<dyn TextMapPropagator>> = Vec::new(alloc);
    members.push(Box::new(alloc, stamps_of(alloc, &[("x", "1")])?)?)?;
    members.push(Box::new(alloc, RefusingMember)?)?;
    members.push(Box::new(alloc, stamps_of(alloc, &[("y", "2")])?)?)?;
    let composite = TextMapCompositePropagator::new(alloc, members)?;
    let mut texts: HashMap<String, String> = HashMap::new(alloc);
    let answer = composite.inject_context(&Context::new(), &mut texts);
    assert!(rt; answer == Err(PropagationError::Refused));
    assert_eq!(rt; texts.len(), 1);
    assert_eq!(rt; held(&texts, "x"), "1");
    Ok(())
}

#[test]
fn a_composite_injects_from_the_current_context(rt: HostRuntime) -> Result<(), Fail> {
    let alloc = rt.alloc();
    let mut members: Vec<Box<dyn TextMapPropagator>> = Vec::new(alloc);
    members.push(Box::new(alloc, stamps_of(alloc, &[("b", "2")])?)?)?;
    let composite = TextMapCompositePropagator::new(alloc, members)?;
    let stack = ContextStack::new(alloc)?;
    let mut texts: HashMap<String, String> = HashMap::new(alloc);
    assert!(rt; composite.inject(&stack, &mut texts).is_ok());
    assert_eq!(rt; texts.len(), 1);
    assert_eq!(rt; held(&texts, "b"), "2");
    Ok(())
}

/// The text that a carrier refuses, whether an injection of `x`, `y` and then `X` by a second
/// member reached it, and the texts of the carrier.
const REFUSED_AT: &[(usize, bool, &[(&str, &str)])] = &[
    (1, true, &[("x", "none"), ("y", "none")]),
    (2, true, &[("x", "1"), ("y", "none")]),
    (3, true, &[("x", "1"), ("y", "2")]),
    (4, false, &[("x", "3"), ("y", "2")]),
];

#[test]
fn a_carrier_refuses_one_text_of_two_members(rt: HostRuntime) -> Result<(), Fail> {
    let alloc = rt.alloc();
    let composite = composite_of(alloc, &[&[("x", "1"), ("y", "2")], &[("X", "3")]])?;
    for (number, is_refused, texts) in REFUSED_AT {
        let mut carrier = carrier_refusing_after(alloc, *number - 1);
        let answer = composite.inject_context(&Context::new(), &mut carrier);
        let wanted = if *is_refused {
            Err(PropagationError::Refused)
        } else {
            Ok(())
        };
        assert!(rt; answer == wanted, "text {number}");
        assert_held(&rt, &carrier.texts, texts);
        let count = texts.iter().filter(|pair| pair.1 != "none").count();
        assert_eq!(rt; carrier.texts.len(), count, "text {number}");
    }
    Ok(())
}
