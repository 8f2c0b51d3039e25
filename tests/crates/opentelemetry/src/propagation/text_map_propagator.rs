//! A propagator's calls on the current context.
use crate::members::{EntryCopier, entry, stamps_of, with_text};
use opentelemetry::context::{Context, ContextStack};
use opentelemetry::propagation::TextMapPropagator;
use std::collections::HashMap;
use std::test::Fail;
use test_support::{held, map_of};

#[test]
fn a_member_injects_from_the_current_context(rt: HostRuntime) -> Result<(), Fail> {
    let stack = ContextStack::new(rt.alloc())?;
    let member = stamps_of(rt.alloc(), &[("A", "1")])?;
    let mut texts: HashMap<String, String> = HashMap::new(rt.alloc());
    assert!(rt; member.inject(&stack, &mut texts).is_ok());
    assert_eq!(rt; texts.len(), 1);
    assert_eq!(rt; held(&texts, "a"), "1");
    Ok(())
}

#[test]
fn a_member_extracts_from_the_current_context(rt: HostRuntime) -> Result<(), Fail> {
    let alloc = rt.alloc();
    let mut stack = ContextStack::new(alloc)?;
    assert!(rt;
        stack
            .push(with_text(alloc, &Context::new(), "a", "1")?)
            .is_ok()
    );
    let texts = map_of(alloc, &[])?;
    let copier = EntryCopier { from: "a", to: "b" };
    match copier.extract(alloc, &stack, &texts) {
        Ok(given) => assert_eq!(rt; entry(&given, "b"), "1"),
        Err(_) => assert!(rt; false),
    }
    Ok(())
}
