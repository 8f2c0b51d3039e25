//! Attaches to stacks, and their capacity.
use crate::lines::Lines;
use otel_context::{Context, ContextGuard, ContextStack};
use std::alloc::{AllocError, Global};

/// The number of attachments that fit into a new stack.
const INITIAL_ROOM: u16 = 8;

/// A number of attachments for which a stack has to allocate.
const MANY: u16 = 100;

pub fn play<R: Print>(alloc: Global, lines: &Lines<'_, R>) {
    if lines.begin("stack-new") {
        new(alloc, lines);
    }
    for (name, call) in CALLS {
        if lines.begin(name) {
            lines.end(with_suppressed(alloc, lines, call));
        }
    }
}

/// A call on a new stack.
#[derive(Clone, Copy)]
enum Call {
    FirstRoom,
    Push,
    PushAgain,
    Attach,
    AttachAgain,
    Enter,
}

/// The scenarios, each of which starts with a new stack and a suppressed context.
const CALLS: [(&str, Call); 6] = [
    ("stack-first-room", Call::FirstRoom),
    ("stack-push", Call::Push),
    ("stack-push-again", Call::PushAgain),
    ("stack-attach", Call::Attach),
    ("stack-attach-again", Call::AttachAgain),
    ("stack-enter-telemetry-suppressed-scope", Call::Enter),
];

fn suppressed(alloc: Global) -> Result<Context, AllocError> {
    Context::new().with_telemetry_suppressed(alloc)
}

/// Makes this call on a new stack, with a suppressed context if the call needs one.
fn with_suppressed<R: Print>(
    alloc: Global,
    lines: &Lines<'_, R>,
    call: Call,
) -> Result<(), AllocError> {
    let suppressed = suppressed(alloc)?;
    of_new(alloc, lines, &suppressed, call)
}

fn of_new<R: Print>(
    alloc: Global,
    lines: &Lines<'_, R>,
    suppressed: &Context,
    call: Call,
) -> Result<(), AllocError> {
    let mut stack = ContextStack::new(alloc)?;
    called(lines, &mut stack, suppressed, call)
}

fn called<R: Print>(
    lines: &Lines<'_, R>,
    stack: &mut ContextStack,
    suppressed: &Context,
    call: Call,
) -> Result<(), AllocError> {
    match call {
        Call::PushAgain => return push_again(lines, stack, suppressed),
        Call::AttachAgain => return attach_again(lines, stack, &Way::Given(suppressed)),
        Call::FirstRoom => first_room(lines, stack),
        Call::Push => push(lines, stack, suppressed),
        Call::Attach => attach(lines, stack, &Way::Given(suppressed)),
        Call::Enter => attach(lines, stack, &Way::Suppressed),
    }
    Ok(())
}

fn new<R: Print>(alloc: Global, lines: &Lines<'_, R>) {
    match ContextStack::new(alloc) {
        Ok(stack) => lines.answer(&stack.newest_position()),
        Err(error) => lines.answer(&error),
    }
}

/// After a stack is made, eight attaches don't allocate.
fn first_room<R: Print>(lines: &Lines<'_, R>, stack: &mut ContextStack) {
    for _ in 0..INITIAL_ROOM {
        lines.free_of("ContextStack::push", stack.push(Context::new()));
    }
}

/// A context that differs from the current one: the suppressed one, or the empty one.
fn other(stack: &ContextStack, suppressed: &Context) -> Result<Context, AllocError> {
    if stack.is_current_telemetry_suppressed() {
        Ok(Context::new())
    } else {
        suppressed.clone()
    }
}

/// Whether this position is the newest, and whether its context, which is current, is suppressed as
/// expected.
fn stands(stack: &ContextStack, newest: u16, is_suppressed: bool) -> bool {
    stack.newest_position() == newest && stack.is_current_telemetry_suppressed() == is_suppressed
}

fn push_other(stack: &mut ContextStack, suppressed: &Context) -> Result<u16, AllocError> {
    let context = other(stack, suppressed)?;
    stack.push(context)
}

/// Pushes contexts, every other one suppressed, until a push fails or `count` are attached. Returns
/// the number of attached contexts, and the result of the last push.
fn filled(stack: &mut ContextStack, suppressed: &Context) -> (u16, Result<u16, AllocError>) {
    for count in 0..MANY {
        match push_other(stack, suppressed) {
            Ok(position) if position == count + 1 => {}
            last => return (count, last),
        }
    }
    (MANY, Ok(MANY))
}

/// Removes all attachments, the newest first. Returns whether there were `count`, every other one
/// suppressed.
fn unwound(stack: &mut ContextStack, count: u16) -> bool {
    for taken in 0..count {
        let position = count - taken;
        if !stands(stack, position, position % 2 == 1) || stack.pop_id(position).is_none() {
            return false;
        }
    }
    stands(stack, 0, false)
}

/// Pushes until the stack is full and can't grow. The earlier attachments must remain.
fn push<R: Print>(lines: &Lines<'_, R>, stack: &mut ContextStack, suppressed: &Context) {
    let (count, last) = filled(stack, suppressed);
    lines.answer_of(last);
    lines.due(unwound(stack, count));
}

/// Removes this many attachments, the oldest first.
fn emptied(stack: &mut ContextStack, count: u16) -> bool {
    for below in 0..count {
        if stack.pop_id(below + 1).is_none() {
            return false;
        }
    }
    stands(stack, 0, false)
}

/// A stack keeps the capacity that it allocated: if it is filled, emptied and filled again, it
/// doesn't allocate again.
fn push_again<R: Print>(
    lines: &Lines<'_, R>,
    stack: &mut ContextStack,
    suppressed: &Context,
) -> Result<(), AllocError> {
    let (count, last) = filled(stack, suppressed);
    last?;
    lines.free("ContextStack::pop_id", &emptied(stack, count));
    let (count, last) = filled(stack, suppressed);
    lines.free_of("ContextStack::push", last);
    lines.free("ContextStack::pop_id", &unwound(stack, count));
    Ok(())
}

/// A way to attach a context.
#[derive(Drop)]
enum Way<'a> {
    /// The empty one or, if that is current, this one, which is suppressed.
    Given(&'a Context),
    /// With a scope in which telemetry is suppressed.
    Suppressed,
}

impl Way<'_> {
    fn attach(&self, stack: &mut ContextStack) -> Result<ContextGuard, AllocError> {
        match self {
            Way::Given(suppressed) => {
                let context = other(stack, suppressed)?;
                stack.attach(context)
            }
            Way::Suppressed => stack.enter_telemetry_suppressed_scope(),
        }
    }

    /// Whether the attached context is suppressed, after one that is or isn't.
    fn suppresses(&self, was_suppressed: bool) -> bool {
        match self {
            Way::Given(_) => !was_suppressed,
            Way::Suppressed => true,
        }
    }
}

/// Attaches this many contexts one within another, until an attach fails, and detaches them from
/// the inside out. Returns the newest position, or the error, and whether the stack was as expected
/// after each call.
fn nested(stack: &mut ContextStack, way: &Way<'_>, depth: u16) -> (Result<u16, AllocError>, bool) {
    let newest = stack.newest_position();
    if depth == 0 {
        return (Ok(newest), true);
    }
    let was_suppressed = stack.is_current_telemetry_suppressed();
    match way.attach(stack) {
        Ok(guard) => {
            let is_current = stands(stack, guard.position(), way.suppresses(was_suppressed));
            let (answer, are_due) = nested(stack, way, depth - 1);
            let is_detached = stack.detach(guard).is_some();
            let is_due = stands(stack, newest, was_suppressed);
            (answer, are_due && is_current && is_detached && is_due)
        }
        Err(error) => (Err(error), stands(stack, newest, was_suppressed)),
    }
}

/// Attaches until the stack is full and can't grow.
fn attach<R: Print>(lines: &Lines<'_, R>, stack: &mut ContextStack, way: &Way<'_>) {
    let (answer, is_due) = nested(stack, way, MANY);
    lines.answer_of(answer);
    lines.due(is_due);
}

/// Attaches and detaches many contexts, twice: the second time, the same number of attaches doesn't
/// allocate.
fn attach_again<R: Print>(
    lines: &Lines<'_, R>,
    stack: &mut ContextStack,
    way: &Way<'_>,
) -> Result<(), AllocError> {
    let (answer, _) = nested(stack, way, MANY);
    answer?;
    let (answer, is_due) = nested(stack, way, MANY);
    lines.free_of("ContextStack::attach", answer);
    lines.free("ContextStack::detach", &is_due);
    Ok(())
}
