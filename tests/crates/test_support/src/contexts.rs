//! Contexts, context stacks and baggages.
use otel_base::{AnyValue, Key, StringValue};
use otel_context::{Baggage, BaggageMetadata, Context, ContextGuard, ContextStack, HasCurrent};
use std::alloc::{AllocError, Global};
use std::process::Abort;

/// The empty context with the entry `name`.
pub fn named(alloc: Global, name: &'static str) -> Result<Context, AllocError> {
    Context::new().with_value(alloc, Key::from("name"), AnyValue::from(name))
}

/// The text of an entry, or nothing.
pub fn text_of<'a>(context: &'a Context, key: &str) -> &'a str {
    match context.get(key) {
        Some(AnyValue::String(text)) => text.as_str(),
        _ => "",
    }
}

/// The entry `name`, or `base`.
pub fn name_of(context: &Context) -> &str {
    let name = text_of(context, "name");
    if name.is_empty() { "base" } else { name }
}

/// A key, its value and its metadata.
pub type Member = (&'static str, &'static str, &'static str);

/// The baggage after an insert of each member in turn.
pub fn baggage_of(alloc: Global, members: &[Member]) -> Result<Baggage, AllocError> {
    let mut baggage = Baggage::new(alloc);
    for (key, value, metadata) in members {
        let metadata = BaggageMetadata::new(alloc, *metadata)?;
        drop(baggage.insert_with_metadata(Key::from(*key), StringValue::from(*value), metadata)?);
    }
    Ok(baggage)
}

/// The newest position of a stack, and the position of the next attach. 65535 means none.
pub const POSITIONS: &[(u16, u16)] = &[(65532, 65533), (65533, 65534), (65534, 65535)];

/// A stack with a context named `below` at this newest position.
pub fn filled(alloc: Global, newest: u16) -> Result<ContextStack, AllocError> {
    let mut stack = ContextStack::new(alloc)?;
    for _ in 1..newest {
        stack.push(Context::new())?;
    }
    stack.push(named(alloc, "below")?)?;
    Ok(stack)
}

/// Detaches the guard of an attach to a stack of [`filled`]. Asserts the state of the stack before
/// and after.
pub fn assert_attached(
    rt: &impl Abort,
    stack: &mut ContextStack,
    guard: ContextGuard,
    newest: u16,
    position: u16,
) {
    let is_given = position != 65535;
    let seen = (
        guard.position(),
        guard.is_attached(),
        stack.newest_position(),
    );
    let is_below = name_of(stack.current()) == "below";
    let removed = stack.detach(guard).is_some();
    assert_eq!(rt; seen, (position, is_given, newest.max(position % 65535)));
    assert_eq!(rt; removed, is_given);
    assert!(rt; is_given || is_below);
    assert_eq!(rt; stack.newest_position(), newest);
    assert_eq!(rt; name_of(stack.current()), "below");
}
