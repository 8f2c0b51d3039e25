//! Guards that are passed to another stack than the one that made them, or whose context was
//! removed.
use otel_context::{Context, ContextStack, HasCurrent};
use std::test::Fail;
use test_support::{name_of, named};

fn name_given(given: &Option<Context>) -> &str {
    given.as_ref().map_or("none", |context| name_of(context))
}

/// Two stacks, one with `a` and `b`, and one with `x`. Both guards of position 1 are spent on the
/// first: the other stack's guard removes `a`, and then nothing is left for its own guard.
#[test]
fn a_guard_of_another_stack_removes_what_stands_there(rt: HostRuntime) -> Result<(), Fail> {
    let alloc = rt.alloc();
    let mut first = ContextStack::new(alloc)?;
    let mut second = ContextStack::new(alloc)?;
    let (a, b, x) = (named(alloc, "a")?, named(alloc, "b")?, named(alloc, "x")?);
    let own = first.attach(a).expect(&rt, "memory");
    let pushed = first.push(b);
    let others = second.attach(x).expect(&rt, "memory");
    let given = first.detach(others);
    let current = name_of(first.current()) == "b" && first.newest_position() == 2;
    let again = first.detach(own);
    assert!(rt; pushed == Ok(2));
    assert_eq!(rt; name_given(&given), "a");
    assert!(rt; current);
    assert_eq!(rt; name_given(&again), "none");
    assert_eq!(rt; name_of(first.current()), "b");
    assert_eq!(rt; name_of(second.current()), "x");
    assert_eq!(rt; name_given(&second.pop_id(1)), "x");
    assert_eq!(rt; name_of(second.current()), "base");
    Ok(())
}

/// The guard of a refused attach has no position, so nothing is live at it in any stack.
#[test]
fn a_refused_guard_removes_nothing_anywhere(rt: HostRuntime) -> Result<(), Fail> {
    let alloc = rt.alloc();
    let mut full = ContextStack::new(alloc)?;
    for _ in 0..65534 {
        full.push(Context::new())?;
    }
    let mut other = ContextStack::new(alloc)?;
    other.push(named(alloc, "a")?)?;
    let refused = full.attach(Context::new()).expect(&rt, "memory");
    let given = other.detach(refused);
    assert_eq!(rt; name_given(&given), "none");
    assert_eq!(rt; name_of(other.current()), "a");
    assert_eq!(rt; full.newest_position(), 65534);
    Ok(())
}

/// A guard outlives its context: another attach gets the same position, and the guard removes that
/// context.
#[test]
fn a_guard_removes_what_has_its_position_now(rt: HostRuntime) -> Result<(), Fail> {
    let alloc = rt.alloc();
    let mut stack = ContextStack::new(alloc)?;
    let (a, b) = (named(alloc, "a")?, named(alloc, "b")?);
    let guard = stack.attach(a).expect(&rt, "memory");
    let first = stack.pop_id(guard.position());
    let pushed = stack.push(b);
    let second = stack.detach(guard);
    assert_eq!(rt; name_given(&first), "a");
    assert!(rt; pushed == Ok(1));
    assert_eq!(rt; name_given(&second), "b");
    assert_eq!(rt; stack.newest_position(), 0);
    Ok(())
}
