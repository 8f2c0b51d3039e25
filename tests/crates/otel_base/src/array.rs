//! Arrays.
use crate::value::prints;
use otel_base::{Array, StringValue, Value};
use std::alloc::{AllocError, Global};
use std::test::Fail;

fn texts_of(alloc: Global, texts: &[&'static str]) -> Result<Value, AllocError> {
    let mut items = Vec::new(alloc);
    for text in texts {
        items.push(StringValue::from(*text))?;
    }
    Ok(Value::Array(Array::from(items)))
}

const TEXTS: &[(&[&str], &str)] = &[
    (&["a", "b"], "[\"a\",\"b\"]"),
    (&["a\"b"], "[\"a\"b\"]"),
    (&[], "[]"),
];

#[test]
fn arrays_of_texts_are_printed(rt: HostRuntime) -> Result<(), Fail> {
    for (texts, printed) in TEXTS {
        prints(&rt, rt.alloc(), &texts_of(rt.alloc(), texts)?, printed)?;
    }
    Ok(())
}

/// The texts `0`, `1` and so on, up to that count.
fn numerals(alloc: Global, count: u32) -> Result<Value, AllocError> {
    let mut items = Vec::new(alloc);
    for number in 0..count {
        items.push(StringValue::from(number.to_string(alloc)?))?;
    }
    Ok(Value::Array(Array::from(items)))
}

#[test]
fn an_array_of_1001_texts_is_printed_whole(rt: HostRuntime) -> Result<(), Fail> {
    let mut text = String::from_str(rt.alloc(), "[\"0\"")?;
    for number in 1..1001u32 {
        text.push_str(format!(in rt.alloc(); ",\"{number}\"")?.as_str())?;
    }
    text.push(']')?;
    prints(&rt, rt.alloc(), &numerals(rt.alloc(), 1001)?, text.as_str())?;
    Ok(())
}

#[test]
fn arrays_of_booleans_are_printed(rt: HostRuntime) -> Result<(), Fail> {
    let booleans = Array::from([true, false].to_vec(rt.alloc())?);
    prints(&rt, rt.alloc(), &Value::Array(booleans), "[true,false]")?;
    let empty = Array::Bool(Vec::new(rt.alloc()));
    prints(&rt, rt.alloc(), &Value::Array(empty), "[]")?;
    Ok(())
}

#[test]
fn arrays_of_integers_are_printed(rt: HostRuntime) -> Result<(), Fail> {
    let integers = Array::from([1i64, -2].to_vec(rt.alloc())?);
    prints(&rt, rt.alloc(), &Value::Array(integers), "[1,-2]")?;
    let empty = Array::I64(Vec::new(rt.alloc()));
    prints(&rt, rt.alloc(), &Value::Array(empty), "[]")?;
    Ok(())
}

#[test]
fn empty_arrays_of_different_types_differ(rt: HostRuntime) {
    let booleans = Array::Bool(Vec::new(rt.alloc()));
    let integers = Array::I64(Vec::new(rt.alloc()));
    let texts = Array::String(Vec::new(rt.alloc()));
    assert!(rt; booleans != integers);
    assert!(rt; integers != texts);
    assert!(rt; texts != booleans);
}

#[test]
fn arrays_print_as_their_values_do(rt: HostRuntime) -> Result<(), Fail> {
    let alloc = rt.alloc();
    for (array, text) in [
        (Array::from([true, false].to_vec(alloc)?), "[true,false]"),
        (Array::from([1i64, -2].to_vec(alloc)?), "[1,-2]"),
        (Array::String(Vec::new(alloc)), "[]"),
    ] {
        let printed = format!(in alloc; "{array}")?;
        assert_eq!(rt; printed.as_str(), text);
    }
    Ok(())
}
