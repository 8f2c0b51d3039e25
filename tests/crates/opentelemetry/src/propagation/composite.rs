//! Composites: their fields, and composites without members.
mod extraction;
mod injection;
mod join;
mod odd;
mod two_members;

use crate::members::{assert_fields, assert_held, entry, stamps_of, with_text};
use opentelemetry::context::Context;
use opentelemetry::propagation::{TextMapCompositePropagator, TextMapPropagator};
use std::test::Fail;
use test_support::map_of;

#[test]
fn no_members_leave_carrier_and_context(rt: HostRuntime) -> Result<(), Fail> {
    let alloc = rt.alloc();
    let composite = TextMapCompositePropagator::new(alloc, Vec::new(alloc))?;
    let mut texts = map_of(alloc, &[("x", "1")])?;
    let context = with_text(alloc, &Context::new(), "a", "1")?;
    assert!(rt; composite.inject_context(&context, &mut texts).is_ok());
    assert_held(&rt, &texts, &[("x", "1")]);
    assert_eq!(rt; texts.len(), 1);
    match composite.extract_with_context(alloc, &context, &texts) {
        Ok(given) => assert_eq!(rt; entry(&given, "a"), "1"),
        Err(_) => assert!(rt; false),
    }
    assert_fields(&rt, &composite, &[]);
    Ok(())
}

#[test]
fn fields_stand_once_in_order_of_first_appearance(rt: HostRuntime) -> Result<(), Fail> {
    let alloc = rt.alloc();
    let mut members: Vec<Box<dyn TextMapPropagator>> = Vec::new(alloc);
    members.push(Box::new(alloc, stamps_of(alloc, &[("b", ""), ("a", "")])?)?)?;
    members.push(Box::new(alloc, stamps_of(alloc, &[("a", ""), ("c", "")])?)?)?;
    members.push(Box::new(alloc, stamps_of(alloc, &[("b", "")])?)?)?;
    let composite = TextMapCompositePropagator::new(alloc, members)?;
    assert_fields(&rt, &composite, &["b", "a", "c"]);
    Ok(())
}
