//! Each public call of a baggage with ample memory.
mod header;
mod key;
mod limits;
mod metadata;

use otel_base::{Array, Key, KeyValue, StringValue, Value};
use otel_context::baggage::{Baggage, BaggageMetadata, KeyValueMetadata};
use std::alloc::{AllocError, Global};
use std::process::Abort;
use std::test::Fail;
use test_support::{Member, baggage_of};

/// The printed baggage.
fn printed(alloc: Global, baggage: &Baggage) -> Result<String, AllocError> {
    format!(in alloc; "{baggage}")
}

/// The text of a value, or `none`.
fn text_of<'a>(value: Option<&'a StringValue>) -> &'a str {
    match value {
        Some(value) => value.as_str(),
        None => "none",
    }
}

/// The metadata of a pair, or `none`.
fn metadata_of<'a>(pair: Option<&'a (StringValue, BaggageMetadata)>) -> &'a str {
    match pair {
        Some((_, metadata)) => metadata.as_str(),
        None => "none",
    }
}

#[test]
fn an_insert_drops_the_old_metadata(rt: HostRuntime) -> Result<(), Fail> {
    let mut baggage = baggage_of(rt.alloc(), &[("k", "1", "m")])?;
    let old = baggage.insert(Key::from("k"), StringValue::from("2"))?;
    assert_eq!(rt; text_of(old.as_ref()), "1");
    assert_eq!(rt; printed(rt.alloc(), &baggage)?.as_str(), "k=2");
    Ok(())
}

#[test]
fn a_key_with_a_space_is_refused(rt: HostRuntime) -> Result<(), Fail> {
    let mut baggage = baggage_of(rt.alloc(), &[("k", "1", "m")])?;
    assert!(rt;
        baggage
            .insert(Key::from("a b"), StringValue::from("2"))?
            .is_none()
    );
    assert!(rt; baggage.get("a b").is_none());
    assert_eq!(rt; printed(rt.alloc(), &baggage)?.as_str(), "k=1;m");
    Ok(())
}

#[test]
fn look_ups_give_the_pair(rt: HostRuntime) -> Result<(), Fail> {
    let baggage = baggage_of(rt.alloc(), &[("k", "1", "m"), ("l", "2", "")])?;
    assert_eq!(rt; text_of(baggage.get("k")), "1");
    assert_eq!(rt; text_of(baggage.get("m")), "none");
    assert_eq!(rt; metadata_of(baggage.get_with_metadata("k")), "m");
    Ok(())
}

/// Six members, enough for a look-up by hash. `tenant` is a prefix of `tenants`.
const SIX: &[Member] = &[
    ("tenant", "acme", "m"),
    ("tenants", "2", ""),
    ("region", "eu", "ttl=30"),
    ("user", "7", ""),
    ("user-id", "8", "n"),
    ("plan", "free", "o"),
];

/// Names of no member of [`SIX`]: prefixes, longer names, another case.
const ABSENT: &[&str] = &[
    "", "t", "tenan", "use", "user-", "regions", "user-ids", "Plan", "x",
];

/// Asserts that each member is found by a text of its own, with its value and its metadata, and
/// that nothing else is found.
fn assert_found(
    rt: &impl Abort,
    alloc: Global,
    baggage: &Baggage,
    members: &[Member],
) -> Result<(), Fail> {
    for (key, value, metadata) in members {
        let asked = String::from_str(alloc, *key)?;
        let pair = baggage.get_with_metadata(asked.as_str());
        assert_eq!(rt; text_of(baggage.get(asked.as_str())), *value);
        assert_eq!(rt; text_of(pair.map(|pair| &pair.0)), *value);
        assert_eq!(rt; metadata_of(pair), *metadata);
    }
    for absent in ABSENT {
        assert!(rt; baggage.get(*absent).is_none());
        assert!(rt; baggage.get_with_metadata(*absent).is_none());
    }
    assert_eq!(rt; baggage.len(), members.len());
    Ok(())
}

#[test]
fn more_than_four_members_are_found(rt: HostRuntime) -> Result<(), Fail> {
    let mut baggage = baggage_of(rt.alloc(), SIX)?;
    assert_found(&rt, rt.alloc(), &baggage, SIX)?;
    assert!(rt; baggage.remove("user-").is_none());
    let removed = baggage.remove("tenant");
    assert_eq!(rt; text_of(removed.as_ref().map(|pair| &pair.0)), "acme");
    assert_eq!(rt; metadata_of(removed.as_ref()), "m");
    assert!(rt; baggage.get("tenant").is_none());
    assert!(rt; baggage.remove("tenant").is_none());
    assert_found(&rt, rt.alloc(), &baggage, &SIX[1..])
}

#[test]
fn the_order_stays_as_members_come_and_go(rt: HostRuntime) -> Result<(), Fail> {
    let mut baggage = baggage_of(rt.alloc(), &SIX[..4])?;
    drop(baggage.insert(Key::from("region"), StringValue::from("us"))?);
    let four = "tenant=acme;m,tenants=2,region=us,user=7";
    assert_eq!(rt; printed(rt.alloc(), &baggage)?.as_str(), four);
    drop(baggage.insert(Key::from("plan"), StringValue::from("pro"))?);
    drop(baggage.insert(Key::from("tenants"), StringValue::from("3"))?);
    drop(baggage.remove("tenant"));
    drop(baggage.remove("region"));
    drop(baggage.insert(Key::from("tenant"), StringValue::from("4"))?);
    let again = "tenants=3,user=7,plan=pro,tenant=4";
    assert_eq!(rt; printed(rt.alloc(), &baggage)?.as_str(), again);
    Ok(())
}

#[test]
fn a_replacement_gives_the_old_pair(rt: HostRuntime) -> Result<(), Fail> {
    let mut baggage = baggage_of(rt.alloc(), &[("k", "1", "m")])?;
    let metadata = BaggageMetadata::new(rt.alloc(), "n")?;
    let old = baggage.insert_with_metadata(Key::from("k"), StringValue::from("2"), metadata)?;
    assert_eq!(rt; metadata_of(old.as_ref()), "m");
    assert_eq!(rt; metadata_of(baggage.get_with_metadata("k")), "n");
    Ok(())
}

#[test]
fn a_removal_gives_the_pair_once(rt: HostRuntime) -> Result<(), Fail> {
    let mut baggage = baggage_of(rt.alloc(), &[("k", "1", "m")])?;
    assert_eq!(rt; metadata_of(baggage.remove("k").as_ref()), "m");
    assert!(rt; baggage.remove("k").is_none());
    Ok(())
}

#[test]
fn from_pairs_skips_what_is_refused(rt: HostRuntime) -> Result<(), Fail> {
    let mut pairs = Vec::new(rt.alloc());
    for (key, value) in [("a", "1"), ("a b", "2"), ("c", "3")] {
        let pair = (StringValue::from(value), BaggageMetadata::default());
        pairs.push((Key::from(key), pair))?;
    }
    let baggage = Baggage::from_pairs(rt.alloc(), pairs)?;
    assert_eq!(rt; printed(rt.alloc(), &baggage)?.as_str(), "a=1,c=3");
    Ok(())
}

/// Attributes of four types.
fn attributes(alloc: Global) -> Result<Vec<KeyValue>, AllocError> {
    let numbers = Array::I64([1, -2].to_vec(alloc)?);
    Ok(vec![in alloc;
        KeyValue::new(Key::from("t"), Value::Bool(true)),
        KeyValue::new(Key::from("n"), Value::I64(-7)),
        KeyValue::new(Key::from("s"), Value::from("x")),
        KeyValue::new(Key::from("l"), Value::Array(numbers)),
    ]?)
}

#[test]
fn attributes_are_held_as_texts(rt: HostRuntime) -> Result<(), Fail> {
    let baggage = Baggage::from_key_values(rt.alloc(), attributes(rt.alloc())?)?;
    assert_eq!(rt;
        printed(rt.alloc(), &baggage)?.as_str(),
        "t=true,n=-7,s=x,l=%5B1%2C-2%5D"
    );
    Ok(())
}

#[test]
fn the_last_member_of_a_key_is_held(rt: HostRuntime) -> Result<(), Fail> {
    let mut pairs = Vec::new(rt.alloc());
    let plain = KeyValue::new(Key::from("a"), Value::I64(1));
    pairs.push(KeyValueMetadata::from_key_value(rt.alloc(), plain)?)?;
    let metadata = BaggageMetadata::new(rt.alloc(), "m")?;
    pairs.push(KeyValueMetadata::new(Key::from("a"), StringValue::from("2"), metadata))?;
    let baggage = Baggage::from_key_values_with_metadata(rt.alloc(), pairs)?;
    assert_eq!(rt; printed(rt.alloc(), &baggage)?.as_str(), "a=2;m");
    Ok(())
}

/// The member with `a`, `1` and this metadata.
fn member(alloc: Global, metadata: &str) -> Result<KeyValueMetadata, AllocError> {
    let metadata = BaggageMetadata::new(alloc, metadata)?;
    Ok(KeyValueMetadata::new(Key::from("a"), StringValue::from("1"), metadata))
}

#[test]
fn members_are_cloned(rt: HostRuntime) -> Result<(), Fail> {
    let one = member(rt.alloc(), "m")?;
    assert!(rt; one == one.clone()?);
    Ok(())
}

#[test]
fn members_are_compared(rt: HostRuntime) -> Result<(), Fail> {
    let one = member(rt.alloc(), "m")?;
    assert!(rt; one != member(rt.alloc(), "")?);
    Ok(())
}

#[test]
fn a_walk_goes_over_the_list_once(rt: HostRuntime) -> Result<(), Fail> {
    let baggage = baggage_of(rt.alloc(), &[("a", "1", ""), ("b", "2", "m")])?;
    let mut walk = baggage.iter();
    assert_eq!(rt; walk.size_hint(), (2, Some(2)));
    assert!(rt; walk.next().is_some());
    assert!(rt; walk.next().is_some());
    assert_eq!(rt; walk.size_hint(), (0, Some(0)));
    assert!(rt; walk.next().is_none());
    Ok(())
}

/// The texts of the list, one after another.
fn joined(alloc: Global, baggage: &Baggage) -> Result<String, AllocError> {
    let mut text = String::new(alloc);
    for (key, (value, metadata)) in baggage {
        text.push_str(key.as_str())?;
        text.push_str(value.as_str())?;
        text.push_str(metadata.as_str())?;
    }
    Ok(text)
}

#[test]
fn a_loop_goes_over_the_list_in_order(rt: HostRuntime) -> Result<(), Fail> {
    let baggage = baggage_of(rt.alloc(), &[("a", "1", ""), ("b", "2", "m")])?;
    assert_eq!(rt; joined(rt.alloc(), &baggage)?.as_str(), "a1b2m");
    Ok(())
}

#[test]
fn every_type_prints_for_debugging(rt: HostRuntime) -> Result<(), Fail> {
    let baggage = baggage_of(rt.alloc(), &[("a", "1", "m")])?;
    let text = format!(in rt.alloc(); "{:?} {:?}", baggage, baggage.iter())?;
    assert!(rt; text.contains("m"));
    Ok(())
}
