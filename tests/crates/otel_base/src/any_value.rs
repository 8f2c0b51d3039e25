//! Value trees.
use otel_base::{AnyValue, Key, StringValue};
use std::alloc::{AllocError, Global};
use std::process::Abort;
use std::test::Fail;

fn equals_its_clone(rt: &impl Abort, tree: &AnyValue) -> Result<(), AllocError> {
    assert!(rt; tree.clone()? == *tree);
    Ok(())
}

type Pair = (&'static str, i64);

fn map_of(alloc: Global, entries: &[Pair]) -> Result<AnyValue, AllocError> {
    let mut pairs = Vec::new(alloc);
    for (key, value) in entries {
        pairs.push((Key::from(*key), AnyValue::from(*value)))?;
    }
    AnyValue::map(alloc, pairs)
}

/// The integer under a key of a map.
fn number_at(map: &AnyValue, key: &'static str) -> Option<i64> {
    let AnyValue::Map(entries) = map else {
        return None;
    };
    match entries.get(&Key::from(key)) {
        Some(AnyValue::Int(number)) => Some(*number),
        _ => None,
    }
}

#[test]
fn the_last_value_of_a_key_wins(rt: HostRuntime) -> Result<(), Fail> {
    let map = map_of(rt.alloc(), &[("a", 1), ("b", 2), ("a", 3)])?;
    assert_eq!(rt; number_at(&map, "a"), Some(3));
    assert_eq!(rt; number_at(&map, "b"), Some(2));
    assert_eq!(rt; number_at(&map, "c"), None);
    assert!(rt; map == map_of(rt.alloc(), &[("b", 2), ("a", 3)])?);
    Ok(())
}

#[test]
fn numbers_and_booleans_become_trees(rt: HostRuntime) {
    assert!(rt; AnyValue::from(-8i8) == AnyValue::Int(-8));
    assert!(rt; AnyValue::from(i16::MIN) == AnyValue::Int(-32768));
    assert!(rt; AnyValue::from(i32::MIN) == AnyValue::Int(-2147483648));
    assert!(rt; AnyValue::from(i64::MIN) == AnyValue::Int(i64::MIN));
    assert!(rt; AnyValue::from(u8::MAX) == AnyValue::Int(255));
    assert!(rt; AnyValue::from(u16::MAX) == AnyValue::Int(65535));
    assert!(rt; AnyValue::from(u32::MAX) == AnyValue::Int(4294967295));
    assert!(rt; AnyValue::from(true) == AnyValue::Boolean(true));
}

#[test]
fn texts_become_trees(rt: HostRuntime) -> Result<(), Fail> {
    let tree = AnyValue::String(StringValue::from("a"));
    assert!(rt; AnyValue::from("a") == tree);
    assert!(rt; AnyValue::from(StringValue::from("a")) == tree);
    assert!(rt; AnyValue::from(String::from_str(rt.alloc(), "a")?) == tree);
    Ok(())
}

#[test]
fn trees_of_different_cases_differ(rt: HostRuntime) -> Result<(), Fail> {
    assert!(rt; AnyValue::from(false) != AnyValue::from(0i64));
    assert!(rt; AnyValue::bytes(rt.alloc(), b"a")? != AnyValue::from("a"));
    let map = map_of(rt.alloc(), &[])?;
    assert!(rt; map != AnyValue::list(rt.alloc(), Vec::new(rt.alloc()))?);
    assert!(rt; map != map_of(rt.alloc(), &[("a", 1)])?);
    Ok(())
}

fn nested(alloc: Global, depth: u32, inmost: i64) -> Result<AnyValue, AllocError> {
    let mut tree = AnyValue::from(inmost);
    for _ in 0..depth {
        let mut items = Vec::new(alloc);
        items.push(tree)?;
        tree = AnyValue::list(alloc, items)?;
    }
    Ok(tree)
}

fn wide(alloc: Global, width: i64) -> Result<AnyValue, AllocError> {
    let mut pairs = Vec::new(alloc);
    for i in 0..width {
        pairs.push((Key::new(i.to_string(alloc)?), AnyValue::from(i)))?;
    }
    AnyValue::map(alloc, pairs)
}

#[test]
fn trees_equal_their_clones(rt: HostRuntime) -> Result<(), Fail> {
    equals_its_clone(&rt, &AnyValue::bytes(rt.alloc(), b"ab")?)?;
    equals_its_clone(&rt, &nested(rt.alloc(), 1000, 1)?)?;
    equals_its_clone(&rt, &wide(rt.alloc(), 1000)?)?;
    Ok(())
}

#[test]
fn deep_and_wide_trees_are_compared(rt: HostRuntime) -> Result<(), Fail> {
    let deep = nested(rt.alloc(), 1000, 1)?;
    assert!(rt; deep != nested(rt.alloc(), 1000, 2)?);
    let broad = wide(rt.alloc(), 1000)?;
    assert!(rt; broad != wide(rt.alloc(), 999)?);
    Ok(())
}
