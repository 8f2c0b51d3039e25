//! The results of a stack's calls, by positions and by guards.
mod guards;
mod limits;

use crate::context::{held_in, one_pair};
use otel_base::{AnyValue, Key};
use otel_context::{Context, ContextGuard, ContextStack, HasCurrent};
use std::alloc::{AllocError, Global};
use std::process::Abort;
use std::test::Fail;
use test_support::{name_of, named, text_of};

/// An attach of a context with this name and the position that it gets, or a removal and the name
/// of the removed context.
#[derive(Clone, Copy)]
enum Step {
    Attach(&'static str, u16),
    Remove(u16, &'static str),
}

use Step::{Attach, Remove};

/// A step, the name of the current context after it, and the newest position.
type Row = (Step, &'static str, u16);

/// Removals below the newest, then of the newest over an emptied slot, then an attach at a position
/// that is used again.
const OUT_OF_ORDER: &[Row] = &[
    (Attach("a", 1), "a", 1),
    (Attach("b", 2), "b", 2),
    (Attach("c", 3), "c", 3),
    (Remove(2, "b"), "c", 3),
    (Remove(3, "c"), "a", 1),
    (Attach("d", 2), "d", 2),
    (Remove(3, ""), "d", 2),
];

/// Nothing is live, then one position is.
const EMPTY_AT_FIRST: &[Row] = &[(Remove(1, ""), "base", 0), (Attach("a", 1), "a", 1)];

const LOWER_FIRST: &[Row] = &[
    (Attach("a", 1), "a", 1),
    (Attach("b", 2), "b", 2),
    (Remove(1, "a"), "b", 2),
    (Remove(1, ""), "b", 2),
    (Remove(2, "b"), "base", 0),
];

/// Positions at which nothing is ever live.
const STRANGE_POSITIONS: &[Row] = &[
    (Attach("a", 1), "a", 1),
    (Remove(0, ""), "a", 1),
    (Remove(65535, ""), "a", 1),
    (Remove(1000, ""), "a", 1),
];

/// Three positions below the newest are emptied before it is removed.
const THREE_EMPTIED: &[Row] = &[
    (Attach("a", 1), "a", 1),
    (Attach("b", 2), "b", 2),
    (Attach("c", 3), "c", 3),
    (Attach("d", 4), "d", 4),
    (Attach("e", 5), "e", 5),
    (Remove(2, "b"), "e", 5),
    (Remove(3, "c"), "e", 5),
    (Remove(4, "d"), "e", 5),
    (Remove(5, "e"), "a", 1),
    (Remove(1, "a"), "base", 0),
];

const TABLES: &[&[Row]] = &[
    OUT_OF_ORDER,
    EMPTY_AT_FIRST,
    LOWER_FIRST,
    STRANGE_POSITIONS,
    THREE_EMPTIED,
];

/// A stack that is used by positions, or by guards.
#[derive(Drop)]
struct Asked {
    stack: ContextStack,
    by_guards: bool,
    /// A second stack, which makes guards of any position, and drops the unneeded ones.
    elsewhere: ContextStack,
}

impl Asked {
    fn new(alloc: Global, by_guards: bool) -> Result<Asked, AllocError> {
        Ok(Asked {
            stack: ContextStack::new(alloc)?,
            by_guards,
            elsewhere: ContextStack::new(alloc)?,
        })
    }

    /// Attaches with `ContextStack::push`, or with `ContextStack::attach` and the guard's position.
    fn attach(&mut self, context: Context) -> Result<u16, AllocError> {
        if self.by_guards {
            let guard = self.stack.attach(context)?;
            let position = guard.position();
            drop(self.elsewhere.detach(guard));
            Ok(position)
        } else {
            self.stack.push(context)
        }
    }

    /// Removes with `ContextStack::pop_id`, or with `ContextStack::detach` and a guard of that
    /// position. No guard has position 0.
    fn remove(&mut self, position: u16) -> Result<Option<Context>, AllocError> {
        if self.by_guards && position > 0 {
            let guard = self.guard_at(position)?;
            Ok(self.stack.detach(guard))
        } else {
            Ok(self.stack.pop_id(position))
        }
    }

    /// A guard of this position: the second stack returns it when the position below is its newest.
    fn guard_at(&mut self, position: u16) -> Result<ContextGuard, AllocError> {
        for above in (position..=self.elsewhere.newest_position()).rev() {
            drop(self.elsewhere.pop_id(above));
        }
        for _ in self.elsewhere.newest_position() + 1..position {
            self.elsewhere.push(Context::new())?;
        }
        self.elsewhere.attach(Context::new())
    }
}

/// The name of the context that a removal returns, or nothing.
fn name_given(given: &Option<Context>) -> &str {
    match given {
        Some(context) => name_of(context),
        None => "",
    }
}

/// Runs one step, and asserts its result.
fn play(rt: &impl Abort, alloc: Global, asked: &mut Asked, step: Step) -> Result<(), Fail> {
    match step {
        Attach(name, position) => {
            let context = named(alloc, name)?;
            let given = asked.attach(context)?;
            assert_eq!(rt; given, position);
        }
        Remove(position, name) => {
            let given = asked.remove(position)?;
            assert_eq!(rt; name_given(&given), name);
        }
    }
    Ok(())
}

/// Asserts the name of the current context, and the newest position.
fn assert_stands(rt: &impl Abort, stack: &ContextStack, current: &str, newest: u16) {
    assert_eq!(rt; name_of(stack.current()), current);
    assert_eq!(rt; stack.newest_position(), newest);
}

/// Runs the rows in turn, and asserts the state after each.
fn play_rows(rt: &impl Abort, alloc: Global, asked: &mut Asked, rows: &[Row]) -> Result<(), Fail> {
    for row in rows {
        let (step, current, newest) = *row;
        play(rt, alloc, asked, step)?;
        assert_stands(rt, &asked.stack, current, newest);
    }
    Ok(())
}

fn play_all(rt: &impl Abort, alloc: Global, rows: &[Row], by_guards: bool) -> Result<(), Fail> {
    let mut asked = Asked::new(alloc, by_guards)?;
    play_rows(rt, alloc, &mut asked, rows)
}

#[test]
fn worked_rows(rt: HostRuntime) -> Result<(), Fail> {
    for rows in TABLES {
        play_all(&rt, rt.alloc(), rows, false)?;
        play_all(&rt, rt.alloc(), rows, true)?;
    }
    Ok(())
}

/// An attach to a full stack gets no position.
const AT_THE_LIMIT: &[Row] = &[(Attach("refused", 65535), "a", 65534)];

/// All positions below the newest were removed: none is free until the newest is removed too.
const ABOVE_EMPTIED_SLOTS: &[Row] = &[
    (Attach("refused", 65535), "a", 65534),
    (Remove(65534, "a"), "base", 0),
    (Attach("again", 1), "again", 1),
];

/// Attaches as many times as there are positions.
fn fill(rt: &impl Abort, alloc: Global, asked: &mut Asked) -> Result<(), Fail> {
    let context = named(alloc, "a")?;
    for position in 1..65535 {
        let given = asked.attach(context.clone()?)?;
        assert_eq!(rt; given, position);
    }
    Ok(())
}

/// Removes all but the newest, the oldest first.
fn empty_below(rt: &impl Abort, alloc: Global, asked: &mut Asked) -> Result<(), Fail> {
    for position in 1..65534 {
        play(rt, alloc, asked, Remove(position, "a"))?;
    }
    Ok(())
}

fn play_every_position(rt: &impl Abort, alloc: Global, by_guards: bool) -> Result<(), Fail> {
    let mut asked = Asked::new(alloc, by_guards)?;
    fill(rt, alloc, &mut asked)?;
    play_rows(rt, alloc, &mut asked, AT_THE_LIMIT)?;
    empty_below(rt, alloc, &mut asked)?;
    play_rows(rt, alloc, &mut asked, ABOVE_EMPTIED_SLOTS)
}

#[test]
fn positions_run_out_and_come_back(rt: HostRuntime) -> Result<(), Fail> {
    play_every_position(&rt, rt.alloc(), false)
}

#[test]
fn guards_run_out_of_positions_and_give_them_back(rt: HostRuntime) -> Result<(), Fail> {
    play_every_position(&rt, rt.alloc(), true)
}

#[test]
fn a_guard_stays_attached_whatever_is_removed(rt: HostRuntime) -> Result<(), Fail> {
    let mut stack = ContextStack::new(rt.alloc())?;
    let guard = stack.attach(Context::new()).expect(&rt, "memory");
    assert!(rt; guard.is_attached());
    assert_eq!(rt; guard.position(), 1);
    assert!(rt; stack.pop_id(1).is_some());
    assert!(rt; guard.is_attached());
    assert!(rt; stack.detach(guard).is_none());
    Ok(())
}

#[test]
fn the_guard_of_a_refused_attach_isnt_attached(rt: HostRuntime) -> Result<(), Fail> {
    let mut asked = Asked::new(rt.alloc(), false)?;
    fill(&rt, rt.alloc(), &mut asked)?;
    let refused = asked.stack.attach(Context::new()).expect(&rt, "memory");
    assert!(rt; !refused.is_attached());
    assert_eq!(rt; refused.position(), 65535);
    assert!(rt; asked.stack.detach(refused).is_none());
    assert_stands(&rt, &asked.stack, "a", 65534);
    Ok(())
}

/// Whether `a` of the current context is this text, and `b` is 42 if and only if it should be
/// present.
fn has_entries(stack: &ContextStack, a: &str, has_b: bool) -> bool {
    let context = stack.current();
    let b = context.get("b");
    text_of(context, "a") == a && matches!(b, Some(AnyValue::Int(42))) == has_b
}

/// Attaches a context with `a`, and one derived from it that also has `b`.
fn attach_derived(alloc: Global, asked: &mut Asked) -> Result<(), AllocError> {
    let first = Context::new().with_value(alloc, Key::from("a"), AnyValue::from("1"))?;
    asked.attach(first)?;
    let second = asked
        .stack
        .current_with_value(Key::from("b"), AnyValue::from(42i64))?;
    asked.attach(second)?;
    Ok(())
}

/// Removes the two, the first one first, and asserts the entries of the current context each time.
fn remove_derived(rt: &impl Abort, asked: &mut Asked) -> Result<(), AllocError> {
    assert!(rt; has_entries(&asked.stack, "1", true));
    assert!(rt; asked.remove(1)?.is_some());
    assert!(rt; has_entries(&asked.stack, "1", true));
    assert!(rt; asked.remove(2)?.is_some());
    assert!(rt; has_entries(&asked.stack, "", false));
    Ok(())
}

fn play_derived(rt: &impl Abort, alloc: Global, by_guards: bool) -> Result<(), Fail> {
    let mut asked = Asked::new(alloc, by_guards)?;
    attach_derived(alloc, &mut asked)?;
    remove_derived(rt, &mut asked)?;
    Ok(())
}

#[test]
fn a_context_keeps_the_entries_of_the_one_that_it_was_made_from(
    rt: HostRuntime,
) -> Result<(), Fail> {
    play_derived(&rt, rt.alloc(), false)?;
    play_derived(&rt, rt.alloc(), true)
}

/// Attaches to `one`, and passes the guard to `other`, which has `a` at its position.
fn spend_elsewhere(
    rt: &impl Abort,
    one: &mut ContextStack,
    other: &mut ContextStack,
) -> Result<(), AllocError> {
    let guard = one.attach(Context::new())?;
    let given = other.detach(guard);
    assert!(rt; name_given(&given) == "a");
    assert_stands(rt, other, "base", 0);
    assert_stands(rt, one, "base", 1);
    Ok(())
}

#[test]
fn a_guard_removes_what_is_at_its_position_in_another_stack(rt: HostRuntime) -> Result<(), Fail> {
    let mut one = ContextStack::new(rt.alloc())?;
    let mut other = Asked::new(rt.alloc(), false)?;
    play_rows(&rt, rt.alloc(), &mut other, EMPTY_AT_FIRST)?;
    spend_elsewhere(&rt, &mut one, &mut other.stack)?;
    Ok(())
}

#[test]
fn the_current_context_is_lent_and_asked(rt: HostRuntime) -> Result<(), Fail> {
    let mut stack = ContextStack::new(rt.alloc())?;
    assert!(rt; !stack.is_current_telemetry_suppressed());
    let guard = stack.enter_telemetry_suppressed_scope()?;
    assert!(rt; stack.is_current_telemetry_suppressed());
    assert!(rt; stack.map_current(|context| context.is_telemetry_suppressed()));
    assert!(rt; stack.detach(guard).is_some());
    assert!(rt; !stack.map_current(|context| context.is_telemetry_suppressed()));
    Ok(())
}

#[test]
fn the_current_context_takes_a_baggage(rt: HostRuntime) -> Result<(), Fail> {
    let stack = ContextStack::new(rt.alloc())?;
    let baggage = one_pair(rt.alloc(), "k", "1")?;
    let context = stack.current_with_baggage(baggage)?;
    assert_eq!(rt; held_in(&context, "k"), "1");
    assert!(rt; stack.current().baggage().is_none());
    Ok(())
}
