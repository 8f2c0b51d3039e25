//! The values of key-value pairs, and the order of attributes.
use log::kv::{Primitive, ToValue, Value, display};
use opentelemetry::logs::AnyValue;
use opentelemetry::{Key, StringValue};
use otel_appender_log::{attribute_value, attributes_of};
use std::alloc::Global;
use std::fmt::Display;
use std::process::Abort;
use std::test::Fail;

/// Asserts that the value of a pair becomes the attribute's value.
fn assert_value<D: Display>(
    rt: &impl Abort,
    alloc: Global,
    value: Value<'_, D>,
    wanted: Option<AnyValue>,
) -> Result<(), Fail> {
    let is = attribute_value(alloc, &value)?;
    assert!(rt;
        match (is, wanted) {
            (Some(is), Some(wanted)) => is == wanted,
            (None, None) => true,
            _ => false,
        }
    );
    Ok(())
}

/// Returns the value of a text.
fn text(value: &'static str) -> Option<AnyValue> {
    Some(AnyValue::from(value))
}

#[test]
fn numbers_that_fit_are_integers(rt: HostRuntime) -> Result<(), Fail> {
    let alloc = rt.alloc();
    let greatest = 9_223_372_036_854_775_807u64;
    assert_value(
        &rt,
        alloc,
        greatest.to_value(),
        Some(AnyValue::Int(i64::MAX)),
    )?;
    assert_value(
        &rt,
        alloc,
        i64::MIN.to_value(),
        Some(AnyValue::Int(i64::MIN)),
    )?;
    assert_value(&rt, alloc, (-5i128).to_value(), Some(AnyValue::Int(-5)))?;
    assert_value(&rt, alloc, 7u128.to_value(), Some(AnyValue::Int(7)))?;
    assert_value(&rt, alloc, 0u8.to_value(), Some(AnyValue::Int(0)))?;
    Ok(())
}

#[test]
fn other_values_are_texts(rt: HostRuntime) -> Result<(), Fail> {
    let alloc = rt.alloc();
    let above = 9_223_372_036_854_775_808u64;
    assert_value(&rt, alloc, above.to_value(), text("9223372036854775808"))?;
    assert_value(&rt, alloc, 1.5f64.to_value(), text("1.5"))?;
    assert_value(&rt, alloc, 'c'.to_value(), text("c"))?;
    assert_value(&rt, alloc, "plain".to_value(), text("plain"))?;
    assert_value(&rt, alloc, display(12u8).to_value(), text("12"))?;
    Ok(())
}

#[test]
fn truth_values_and_null(rt: HostRuntime) -> Result<(), Fail> {
    let alloc = rt.alloc();
    assert_value(&rt, alloc, true.to_value(), Some(AnyValue::Boolean(true)))?;
    assert_value(&rt, alloc, Value::<Primitive>::Null, None)?;
    assert_value(&rt, alloc, None::<u8>.to_value(), None)?;
    Ok(())
}

#[test]
fn pairs_stay_in_order(rt: HostRuntime) -> Result<(), Fail> {
    let alloc = rt.alloc();
    let pairs = [("b", 1u8), ("a", 7), ("b", 2)];
    let attributes = attributes_of(alloc, &pairs.as_slice())?;
    let wanted = [
        (Key::from("b"), AnyValue::Int(1)),
        (Key::from("a"), AnyValue::Int(7)),
        (Key::from("b"), AnyValue::Int(2)),
    ];
    assert_eq!(rt; attributes.len(), 3);
    for (is, wanted) in attributes.iter().zip(wanted.iter()) {
        assert_eq!(rt; is.0.as_str(), wanted.0.as_str());
        assert!(rt; is.1 == wanted.1);
    }
    assert!(rt; attributes_of(alloc, &("k", ()))?.is_empty());
    Ok(())
}
