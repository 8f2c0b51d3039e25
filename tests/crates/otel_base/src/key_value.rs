//! Attributes.
use crate::hash_of;
use otel_base::{Key, KeyValue, Value};
use std::test::Fail;

#[test]
fn attributes_are_their_key_and_value(rt: HostRuntime) {
    let attribute = KeyValue::new(Key::from("k"), Value::from(1));
    assert!(rt; attribute != KeyValue::new(Key::from("k"), Value::from(true)));
    assert!(rt; attribute != KeyValue::new(Key::from("j"), Value::from(1)));
    assert_eq!(rt; attribute.key.as_str(), "k");
}

#[test]
fn attributes_are_cloned_and_hashed(rt: HostRuntime) -> Result<(), Fail> {
    let attribute = KeyValue::new(Key::from("k"), Value::from(1));
    let copy = attribute.clone()?;
    assert!(rt; copy == attribute);
    assert_eq!(rt; hash_of(&copy), hash_of(&attribute));
    Ok(())
}
