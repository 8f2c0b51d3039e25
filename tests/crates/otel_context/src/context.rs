//! The results of the calls of a context.
use otel_base::{AnyValue, Key, StringValue};
use otel_context::{Baggage, Context};
use otel_ids::SpanId;
use std::alloc::{AllocError, Global};
use std::process::Abort;
use std::test::Fail;
use test_support::{name_of, named, remote_span_context, text_of};

/// A baggage with this one pair.
pub fn one_pair(
    alloc: Global,
    key: &'static str,
    value: &'static str,
) -> Result<Baggage, AllocError> {
    let mut baggage = Baggage::new(alloc);
    drop(baggage.insert(Key::from(key), StringValue::from(value))?);
    Ok(baggage)
}

/// The value of the key in the context's baggage, if any.
pub fn held_in<'a>(context: &'a Context, key: &str) -> &'a str {
    match context.baggage() {
        Some(baggage) => baggage.get(key).map_or("", |value| value.as_str()),
        None => "",
    }
}

/// Asserts the four parts: the entry `name`, the baggage's `k`, the span's number, and suppression.
fn assert_parts(rt: &impl Abort, context: &Context, parts: (&str, &str, u64, bool)) {
    let (name, value, span, suppressed) = parts;
    assert_eq!(rt; name_of(context), name);
    assert_eq!(rt; held_in(context, "k"), value);
    assert_eq!(rt; context.span_context().span_id(), SpanId::from(span));
    assert_eq!(rt; context.has_active_span(), span > 0);
    assert_eq!(rt; context.span_number(), None);
    assert_eq!(rt; context.is_telemetry_suppressed(), suppressed);
}

/// The context with `k` and `1` as its baggage.
fn with_pair(alloc: Global, context: &Context) -> Result<Context, AllocError> {
    context.with_baggage(alloc, one_pair(alloc, "k", "1")?)
}

#[test]
fn a_remote_span_stands_beside_the_baggage(rt: HostRuntime) -> Result<(), Fail> {
    let named = named(rt.alloc(), "a")?;
    let context = named.with_remote_span_context(rt.alloc(), remote_span_context(7))?;
    let context = with_pair(rt.alloc(), &context)?;
    assert_parts(&rt, &context, ("a", "1", 7, false));
    Ok(())
}

#[test]
fn a_cleared_baggage_is_none(rt: HostRuntime) -> Result<(), Fail> {
    let context = with_pair(rt.alloc(), &Context::default())?;
    let cleared = context.with_cleared_baggage(rt.alloc())?;
    assert!(rt; cleared.baggage().is_none());
    assert_parts(&rt, &cleared, ("base", "", 0, false));
    Ok(())
}

#[test]
fn suppression_stays_with_entry_and_baggage(rt: HostRuntime) -> Result<(), Fail> {
    let context = Context::new().with_telemetry_suppressed(rt.alloc())?;
    let context = context.with_value(rt.alloc(), Key::from("name"), AnyValue::from("a"))?;
    let context = with_pair(rt.alloc(), &context)?;
    assert_parts(&rt, &context, ("a", "1", 0, true));
    Ok(())
}

/// A map with one text.
fn map_of_one(alloc: Global) -> Result<AnyValue, AllocError> {
    let mut pairs = Vec::new(alloc);
    pairs.push((Key::from("in"), AnyValue::from("x")))?;
    AnyValue::map(alloc, pairs)
}

#[test]
fn entries_are_any_value_trees_under_any_text(rt: HostRuntime) -> Result<(), Fail> {
    let context = Context::new().with_value(rt.alloc(), Key::from(""), AnyValue::from("nameless"))?;
    let context = context.with_value(rt.alloc(), Key::from("\u{e9}"), map_of_one(rt.alloc())?)?;
    assert_eq!(rt; text_of(&context, ""), "nameless");
    assert!(rt; matches!(context.get("\u{e9}"), Some(AnyValue::Map(_))));
    assert!(rt; context.get("e").is_none());
    Ok(())
}

/// Names in no order, some of them prefixes of others.
const NAMES: &[&str] = &[
    "m", "c", "x", "a", "mm", "z", "b", "ma", "y", "n", "", "d", "M", "zz", "ab", "l",
];

/// The entry with this name if it is a whole number, and otherwise -1.
fn number_at(context: &Context, name: &str) -> i64 {
    match context.get(name) {
        Some(AnyValue::Int(number)) => *number,
        _ => -1,
    }
}

#[test]
fn entries_set_in_any_order_are_found_and_replaced(rt: HostRuntime) -> Result<(), Fail> {
    let mut context = Context::new();
    for name in NAMES {
        context = context.with_value(rt.alloc(), Key::from(*name), AnyValue::from(*name))?;
    }
    for (number, name) in NAMES.iter().enumerate() {
        assert_eq!(rt; text_of(&context, name), *name);
        let value = AnyValue::from(number as u32);
        context = context.with_value(rt.alloc(), Key::from(*name), value)?;
    }
    for (number, name) in NAMES.iter().enumerate() {
        assert_eq!(rt;
            number_at(&context, name),
            number as i64,
            "the entry {name}"
        );
    }
    for name in ["A", "aa", "k", "mmm", "~"] {
        assert!(rt; context.get(name).is_none(), "the entry {name}");
    }
    Ok(())
}
