//! Instrumentation scopes.
use crate::hash_of;
use otel_base::{InstrumentationScope, Key, KeyValue, StringValue, Value};
use std::alloc::{AllocError, Global};
use std::process::Abort;
use std::test::Fail;

type Pair = (&'static str, &'static str);

fn attributes_of(alloc: Global, pairs: &[Pair]) -> Result<Vec<KeyValue>, AllocError> {
    let mut attributes = Vec::new(alloc);
    for (key, value) in pairs {
        attributes.push(KeyValue::new(Key::from(*key), Value::from(*value)))?;
    }
    Ok(attributes)
}

fn scope_of(alloc: Global, pairs: &[Pair]) -> Result<InstrumentationScope, AllocError> {
    let attributes = attributes_of(alloc, pairs)?;
    InstrumentationScope::builder(StringValue::from("my-crate"))
        .with_version(StringValue::from("v0.1.0"))
        .with_schema_url(StringValue::from("https://opentelemetry.io/schemas/1.17.0"))
        .with_attributes(attributes)
        .build(alloc)
}

fn are_alike(rt: &impl Abort, a: &InstrumentationScope, b: &InstrumentationScope) {
    assert!(rt; a == b);
    assert_eq!(rt; hash_of(a), hash_of(b));
}

#[test]
fn the_order_of_different_keys_does_not_count(rt: HostRuntime) -> Result<(), Fail> {
    let rising = scope_of(rt.alloc(), &[("k1", "v1"), ("k2", "v2")])?;
    let falling = scope_of(rt.alloc(), &[("k2", "v2"), ("k1", "v1")])?;
    are_alike(&rt, &rising, &falling);
    assert!(rt; rising != scope_of(rt.alloc(), &[("k2", "v3"), ("k4", "v5")])?);
    Ok(())
}

#[test]
fn the_order_under_a_repeated_key_counts(rt: HostRuntime) -> Result<(), Fail> {
    let apart = scope_of(rt.alloc(), &[("k", "1"), ("j", "0"), ("k", "2")])?;
    let rising = scope_of(rt.alloc(), &[("j", "0"), ("k", "1"), ("k", "2")])?;
    are_alike(&rt, &apart, &rising);
    assert!(rt; rising != scope_of(rt.alloc(), &[("j", "0"), ("k", "2"), ("k", "1")])?);
    Ok(())
}

fn given_text(alloc: Global, scope: &InstrumentationScope) -> Result<String, AllocError> {
    let mut text = String::new(alloc);
    for attribute in scope.attributes() {
        text.push_str(attribute.key.as_str())?;
    }
    Ok(text)
}

#[test]
fn a_clone_keeps_the_given_order(rt: HostRuntime) -> Result<(), Fail> {
    let scope = scope_of(rt.alloc(), &[("k", "1"), ("j", "0"), ("k", "2")])?;
    let copy = scope.clone()?;
    assert_eq!(rt; given_text(rt.alloc(), &copy)?.as_str(), "kjk");
    are_alike(&rt, &scope, &copy);
    Ok(())
}

fn built_twice(alloc: Global) -> Result<InstrumentationScope, AllocError> {
    let first = attributes_of(alloc, &[("a", "0"), ("b", "0")])?;
    let last = attributes_of(alloc, &[("c", "1")])?;
    InstrumentationScope::builder(StringValue::from("m"))
        .with_version(StringValue::from("v0"))
        .with_version(StringValue::from("v1"))
        .with_schema_url(StringValue::from("u0"))
        .with_schema_url(StringValue::from("u1"))
        .with_attributes(first)
        .with_attributes(last)
        .build(alloc)
}

#[test]
fn the_last_call_of_each_kind_wins(rt: HostRuntime) -> Result<(), Fail> {
    let scope = built_twice(rt.alloc())?;
    assert_eq!(rt; scope.name(), "m");
    assert_eq!(rt; scope.version(), Some("v1"));
    assert_eq!(rt; scope.schema_url(), Some("u1"));
    assert_eq!(rt; given_text(rt.alloc(), &scope)?.as_str(), "c");
    Ok(())
}

#[test]
fn no_attributes_are_as_the_empty_list(rt: HostRuntime) -> Result<(), Fail> {
    let bare = InstrumentationScope::builder(StringValue::from("m")).build(rt.alloc())?;
    let builder = InstrumentationScope::builder(StringValue::from("m"));
    let empty = builder
        .with_attributes(Vec::new(rt.alloc()))
        .build(rt.alloc())?;
    are_alike(&rt, &bare, &empty);
    assert_eq!(rt; bare.version(), None);
    assert_eq!(rt; bare.schema_url(), None);
    Ok(())
}

fn numbered(alloc: Global, is_falling: bool) -> Result<InstrumentationScope, AllocError> {
    let mut attributes = Vec::new(alloc);
    for i in 0..100u8 {
        let number = if is_falling { 99 - i } else { i };
        attributes.push(KeyValue::new(Key::new(number.to_string(alloc)?), Value::from(true)))?;
    }
    InstrumentationScope::builder(StringValue::from("m"))
        .with_attributes(attributes)
        .build(alloc)
}

#[test]
fn many_attributes_are_sorted(rt: HostRuntime) -> Result<(), Fail> {
    let rising = numbered(rt.alloc(), false)?;
    are_alike(&rt, &rising, &numbered(rt.alloc(), true)?);
    Ok(())
}
