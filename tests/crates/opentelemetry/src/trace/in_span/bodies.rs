//! Bodies that change their borrowed arguments in odd ways.
use crate::trace::in_span::in_span;
use opentelemetry::context::ContextStack;
use opentelemetry::trace::Spans;
use std::test::Fail;
use test_support::{name_of, named};

/// A context that a body attaches in place of its own is removed with it.
#[test]
fn what_stands_in_place_of_the_bodys_context_is_removed(rt: HostRuntime) -> Result<(), Fail> {
    let alloc = rt.alloc();
    let mut stack = ContextStack::new(alloc)?;
    let mut spans = Spans::new(alloc);
    let other = named(alloc, "other")?;
    let result = in_span(alloc, &mut stack, &mut spans, |stack, _spans, _context| {
        let is_popped = stack.pop_id(1).is_some();
        let position = stack.push(other);
        (is_popped, position, name_of(stack.current()) == "other")
    });
    assert!(rt; matches!(result, Ok(((true, Ok(1), true), 0))));
    assert_eq!(rt; stack.newest_position(), 0);
    assert_eq!(rt; name_of(stack.current()), "base");
    assert!(rt; stack.pop_id(1).is_none());
    Ok(())
}

/// If a body removes the contexts below its own, nothing remains: its own context is removed after
/// it.
#[test]
fn a_body_may_remove_what_stood_before_it(rt: HostRuntime) -> Result<(), Fail> {
    let alloc = rt.alloc();
    let mut stack = ContextStack::new(alloc)?;
    let mut spans = Spans::new(alloc);
    stack.push(named(alloc, "a")?)?;
    let result = in_span(alloc, &mut stack, &mut spans, |stack, _spans, context| {
        let given = stack.pop_id(1);
        let is_a = given
            .as_ref()
            .is_some_and(|context| name_of(context) == "a");
        let is_current = stack.current().span_number() == context.span_number();
        (is_a, is_current, stack.newest_position())
    });
    assert!(rt; matches!(result, Ok(((true, true, 2), 0))));
    assert_eq!(rt; stack.newest_position(), 0);
    assert_eq!(rt; name_of(stack.current()), "base");
    Ok(())
}

/// A body may replace the whole stack and table that it borrows.
#[test]
fn a_body_may_replace_what_it_is_lent(rt: HostRuntime) -> Result<(), Fail> {
    let alloc = rt.alloc();
    let mut stack = ContextStack::new(alloc)?;
    let mut spans = Spans::new(alloc);
    stack.push(named(alloc, "a")?)?;
    let mut fresh = ContextStack::new(alloc)?;
    fresh.push(named(alloc, "x")?)?;
    fresh.push(named(alloc, "y")?)?;
    fresh.push(named(alloc, "z")?)?;
    let result = in_span(alloc, &mut stack, &mut spans, |stack, spans, _context| {
        *stack = fresh;
        *spans = Spans::starting_at(alloc, 9);
    });
    // Its context was attached at position 2, where `y` is live now.
    assert!(rt; matches!(result, Ok(((), 0))));
    assert_eq!(rt; stack.newest_position(), 3);
    assert_eq!(rt; name_of(stack.current()), "z");
    assert!(rt; stack.pop_id(2).is_none());
    assert!(rt; stack.pop_id(3).is_some());
    assert_eq!(rt; name_of(stack.current()), "x");
    assert!(rt; spans.is_empty());
    assert_eq!(rt; spans.next_number(), 9);
    Ok(())
}
