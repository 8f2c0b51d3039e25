//! Other calls on stacks.
use crate::context::contexts::{baggage, full};
use crate::lines::Lines;
use crate::shown::{Show, answer_shown};
use otel_base::{AnyValue, Key};
use otel_context::{Context, ContextStack, HasCurrent};
use std::alloc::{AllocError, Global};

pub fn play<R: Print>(alloc: Global, lines: &Lines<'_, R>) {
    for (name, call) in CALLS {
        if lines.begin(name) {
            lines.end(of_full(alloc, lines, call));
        }
    }
}

/// The last position of a stack.
const LAST: u16 = 65534;

/// A call on a stack.
#[derive(Clone, Copy)]
enum Call {
    CurrentWithValue,
    CurrentWithBaggage,
    Looks,
    GuardOfAnother,
    Full,
}

/// The scenarios, each of which starts with a stack whose one attachment has every part.
const CALLS: [(&str, Call); 5] = [
    ("stack-current-with-value", Call::CurrentWithValue),
    ("stack-current-with-baggage", Call::CurrentWithBaggage),
    ("stack-looks", Call::Looks),
    ("stack-guard-of-another", Call::GuardOfAnother),
    ("stack-full", Call::Full),
];

/// A stack whose one attachment has every part.
pub fn stack_of_full(alloc: Global) -> Result<ContextStack, AllocError> {
    let mut stack = ContextStack::new(alloc)?;
    stack.push(full(alloc)?)?;
    Ok(stack)
}

/// Makes this call on such a stack.
fn of_full<R: Print>(alloc: Global, lines: &Lines<'_, R>, call: Call) -> Result<(), AllocError> {
    let mut stack = stack_of_full(alloc)?;
    called(alloc, lines, &mut stack, call)
}

fn called<R: Print>(
    alloc: Global,
    lines: &Lines<'_, R>,
    stack: &mut ContextStack,
    call: Call,
) -> Result<(), AllocError> {
    match call {
        Call::CurrentWithBaggage => return current_with_baggage(alloc, lines, stack),
        Call::GuardOfAnother => return guard_of_another(alloc, lines, stack),
        Call::Full => return to_the_last(lines, stack),
        Call::CurrentWithValue => current_with_value(lines, stack),
        Call::Looks => looks(lines, stack),
    }
    Ok(())
}

fn current_with_value<R: Print>(lines: &Lines<'_, R>, stack: &ContextStack) {
    answer_shown(
        lines,
        stack.current_with_value(Key::from("b"), AnyValue::Int(2)),
    );
    lines.receiver(&Show(stack.current()));
}

fn current_with_baggage<R: Print>(
    alloc: Global,
    lines: &Lines<'_, R>,
    stack: &ContextStack,
) -> Result<(), AllocError> {
    let other = baggage(alloc, "j", "w")?;
    answer_shown(lines, stack.current_with_baggage(other));
    lines.receiver(&Show(stack.current()));
    Ok(())
}

fn has_span(stack: &ContextStack) -> bool {
    stack.map_current(|context| context.has_active_span())
}

fn pops(stack: &mut ContextStack, position: u16) -> bool {
    stack.pop_id(position).is_some()
}

fn looks<R: Print>(lines: &Lines<'_, R>, stack: &mut ContextStack) {
    lines.free("ContextStack::current", &Show(stack.current()));
    lines.free("ContextStack::map_current", &has_span(stack));
    lines.free(
        "ContextStack::is_current_telemetry_suppressed",
        &stack.is_current_telemetry_suppressed(),
    );
    lines.free("ContextStack::newest_position", &stack.newest_position());
    lines.free("ContextStack::pop_id", &pops(stack, 2));
    lines.free("ContextStack::pop_id", &pops(stack, 1));
    lines.free("ContextStack::map_current", &has_span(stack));
}

/// A guard removes the attachment at its position in the stack to which it is passed.
fn guard_of_another<R: Print>(
    alloc: Global,
    lines: &Lines<'_, R>,
    other: &mut ContextStack,
) -> Result<(), AllocError> {
    let mut stack = ContextStack::new(alloc)?;
    given_to(lines, &mut stack, other);
    Ok(())
}

/// Attaches to the first stack, and passes the guard to the other one.
fn given_to<R: Print>(lines: &Lines<'_, R>, stack: &mut ContextStack, other: &mut ContextStack) {
    match stack.attach(Context::new()) {
        Ok(guard) => {
            lines.free("ContextStack::attach", &guard.position());
            lines.free("ContextStack::detach", &other.detach(guard).is_some());
        }
        Err(error) => lines.free("ContextStack::attach", &error),
    }
    lines.free("ContextStack::newest_position", &other.newest_position());
    lines.free("ContextStack::newest_position", &stack.newest_position());
}

/// Attaches until no position is left.
fn to_the_last<R: Print>(lines: &Lines<'_, R>, stack: &mut ContextStack) -> Result<(), AllocError> {
    for _ in 0..LAST {
        stack.push(Context::new())?;
    }
    lines.free_of("ContextStack::push", stack.push(Context::new()));
    attached_to_none(lines, stack);
    lines.free("ContextStack::newest_position", &stack.newest_position());
    Ok(())
}

fn attached_to_none<R: Print>(lines: &Lines<'_, R>, stack: &mut ContextStack) {
    match stack.attach(Context::new()) {
        Ok(guard) => {
            lines.free("ContextStack::attach", &guard.position());
            lines.free("ContextGuard::is_attached", &guard.is_attached());
            stack.detach(guard);
        }
        Err(error) => lines.free("ContextStack::attach", &error),
    }
}
