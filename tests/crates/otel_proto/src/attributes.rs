//! The bytes of attributes.
use otel_base::{Array, Key, KeyValue, StringValue, Value};
use otel_proto::key_value_list_bytes;
use std::alloc::{AllocError, Global};
use std::process::Abort;
use std::test::Fail;

// Asserts that an attribute with the key `k` and this value has these bytes of an `AnyValue`.
fn assert_value(
    rt: &impl Abort,
    alloc: Global,
    value: Value,
    wanted: &[u8],
) -> Result<(), AllocError> {
    let found = key_value_list_bytes(alloc, &[KeyValue::new(Key::from("k"), value)])?;
    let mut all = vec![in alloc; 0x0a]?;
    all.push((wanted.len() % 64) as u8 + 5)?;
    all.extend_from_slice(b"\x0a\x01k\x12")?;
    all.push((wanted.len() % 64) as u8)?;
    all.extend_from_slice(wanted)?;
    assert_eq!(rt; found.as_slice(), all.as_slice());
    Ok(())
}

#[test]
fn values(rt: HostRuntime) -> Result<(), Fail> {
    let alloc = rt.alloc();
    assert_value(&rt, alloc, Value::from("v"), b"\x0a\x01v")?;
    assert_value(&rt, alloc, Value::from(false), b"\x10\x00")?;
    assert_value(&rt, alloc, Value::from(300), b"\x18\xac\x02")?;
    let negative = b"\x18\xfb\xff\xff\xff\xff\xff\xff\xff\xff\x01";
    assert_value(&rt, alloc, Value::from(-5), negative)?;
    Ok(())
}

#[test]
fn arrays(rt: HostRuntime) -> Result<(), Fail> {
    let alloc = rt.alloc();
    let booleans = Array::from(vec![in alloc; true, false]?);
    let wanted = b"\x2a\x08\x0a\x02\x10\x01\x0a\x02\x10\x00";
    assert_value(&rt, alloc, Value::Array(booleans), wanted)?;
    let integers = Array::from(vec![in alloc; 1, 0]?);
    let wanted = b"\x2a\x08\x0a\x02\x18\x01\x0a\x02\x18\x00";
    assert_value(&rt, alloc, Value::Array(integers), wanted)?;
    let texts = vec![in alloc; StringValue::from("a"), StringValue::from("")]?;
    let wanted = b"\x2a\x09\x0a\x03\x0a\x01a\x0a\x02\x0a\x00";
    assert_value(&rt, alloc, Value::Array(Array::from(texts)), wanted)?;
    Ok(())
}

#[test]
fn two_attributes_in_order(rt: HostRuntime) -> Result<(), Fail> {
    let alloc = rt.alloc();
    let attributes = [
        KeyValue::new(Key::from("b"), Value::from(1)),
        KeyValue::new(Key::from(""), Value::from(true)),
    ];
    let found = key_value_list_bytes(alloc, &attributes)?;
    let wanted = b"\x0a\x07\x0a\x01b\x12\x02\x18\x01\x0a\x04\x12\x02\x10\x01";
    assert_eq!(rt; found.as_slice(), wanted.as_slice());
    let none = key_value_list_bytes(alloc, &[])?;
    assert!(rt; none.is_empty());
    Ok(())
}
