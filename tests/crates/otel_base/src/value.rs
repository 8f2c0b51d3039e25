//! Values.
use otel_base::{Array, StringValue, Value};
use std::alloc::{AllocError, Global};
use std::process::Abort;
use std::rc::RcStr;
use std::test::Fail;

/// Asserts the text of the value by each call that gives it, and that a clone is equal.
pub fn prints(rt: &impl Abort, alloc: Global, value: &Value, text: &str) -> Result<(), AllocError> {
    assert_eq!(rt; value.to_string(alloc)?.as_str(), text);
    assert_eq!(rt; format!(in alloc; "{value}")?.as_str(), text);
    assert_eq!(rt; &*value.as_str(alloc)?, text);
    assert_eq!(rt;
        StringValue::from_value(alloc, value.clone()?)?.as_str(),
        text
    );
    assert!(rt; value.clone()? == *value);
    Ok(())
}

const INTEGERS: &[(i64, &str)] = &[
    (0, "0"),
    (i64::MAX, "9223372036854775807"),
    (i64::MIN, "-9223372036854775808"),
];

#[test]
fn booleans_and_integers_are_printed(rt: HostRuntime) -> Result<(), Fail> {
    prints(&rt, rt.alloc(), &Value::from(true), "true")?;
    prints(&rt, rt.alloc(), &Value::from(false), "false")?;
    for (integer, text) in INTEGERS {
        prints(&rt, rt.alloc(), &Value::from(*integer), text)?;
    }
    Ok(())
}

#[test]
fn texts_are_printed_raw(rt: HostRuntime) -> Result<(), Fail> {
    for text in ["", "a\"b"] {
        prints(&rt, rt.alloc(), &Value::from(text), text)?;
    }
    prints(
        &rt,
        rt.alloc(),
        &Value::from(StringValue::from("text")),
        "text",
    )?;
    Ok(())
}

#[test]
fn texts_are_printed_however_held(rt: HostRuntime) -> Result<(), Fail> {
    let owned = Value::from(String::from_str(rt.alloc(), "owned")?);
    prints(&rt, rt.alloc(), &owned, "owned")?;
    let shared = Value::from(RcStr::from_str(rt.alloc(), "shared")?);
    prints(&rt, rt.alloc(), &shared, "shared")?;
    Ok(())
}

fn differ(rt: &impl Abort, a: &Value, b: &Value) {
    assert!(rt; a != b);
    assert!(rt; b != a);
}

#[test]
fn values_of_different_types_differ(rt: HostRuntime) {
    differ(&rt, &Value::from("1"), &Value::from(1));
    differ(&rt, &Value::from(true), &Value::from(1));
    let integers = Array::I64(Vec::new(rt.alloc()));
    differ(&rt, &Value::Array(integers), &Value::from(""));
}
