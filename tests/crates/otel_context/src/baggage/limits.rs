//! The limits of a baggage, 64 pairs and 8192 bytes, one below, at and above, with each of the five
//! calls that insert, and the space that is free again after a pair is removed or replaced.
use crate::baggage::{printed, text_of};
use otel_base::{Key, KeyValue, StringValue, Value};
use otel_context::baggage::{
    Baggage, BaggageMetadata, KeyValueMetadata, MAX_KEY_VALUE_PAIRS, MAX_LEN_OF_ALL_PAIRS,
};
use std::alloc::{AllocError, Global};
use std::process::Abort;
use std::test::Fail;
use test_support::baggage_of;

/// The calls that insert members into a baggage.
#[derive(Clone, Copy, Debug)]
enum Way {
    Insert,
    InsertWithMetadata,
    FromPairs,
    FromKeyValues,
    FromKeyValuesWithMetadata,
}

const WAYS: &[Way] = &[
    Way::Insert,
    Way::InsertWithMetadata,
    Way::FromPairs,
    Way::FromKeyValues,
    Way::FromKeyValuesWithMetadata,
];

/// The calls that take metadata.
const METADATA_WAYS: &[Way] = &[
    Way::InsertWithMetadata,
    Way::FromPairs,
    Way::FromKeyValuesWithMetadata,
];

/// A key, a value and metadata. Calls that take no metadata ignore it.
#[derive(Drop)]
struct Member {
    key: String,
    value: String,
    metadata: BaggageMetadata,
}

impl Member {
    fn pair(self) -> (Key, (StringValue, BaggageMetadata)) {
        let Member {
            key,
            value,
            metadata,
        } = self;
        (Key::new(key), (StringValue::from(value), metadata))
    }

    fn key_value(self) -> KeyValue {
        let Member {
            key,
            value,
            metadata: _,
        } = self;
        KeyValue::new(Key::new(key), Value::from(value))
    }
}

/// The baggage made by inserting the members in turn.
fn made(alloc: Global, way: Way, members: Vec<Member>) -> Result<Baggage, AllocError> {
    match way {
        Way::Insert | Way::InsertWithMetadata => inserted(alloc, way, members),
        Way::FromPairs => {
            let mut pairs = Vec::new(alloc);
            for member in members {
                pairs.push(member.pair())?;
            }
            Baggage::from_pairs(alloc, pairs)
        }
        Way::FromKeyValues => {
            let mut pairs = Vec::new(alloc);
            for member in members {
                pairs.push(member.key_value())?;
            }
            Baggage::from_key_values(alloc, pairs)
        }
        Way::FromKeyValuesWithMetadata => {
            let mut pairs = Vec::new(alloc);
            for member in members {
                let (key, (value, metadata)) = member.pair();
                pairs.push(KeyValueMetadata::new(key, value, metadata))?;
            }
            Baggage::from_key_values_with_metadata(alloc, pairs)
        }
    }
}

fn inserted(alloc: Global, way: Way, members: Vec<Member>) -> Result<Baggage, AllocError> {
    let mut baggage = Baggage::new(alloc);
    for member in members {
        let (key, (value, metadata)) = member.pair();
        if matches!(way, Way::Insert) {
            drop(baggage.insert(key, value)?);
        } else {
            drop(baggage.insert_with_metadata(key, value, metadata)?);
        }
    }
    Ok(baggage)
}

/// The member with these texts: each is a byte, repeated.
fn member_of(
    alloc: Global,
    key: (&str, usize),
    value: (&str, usize),
    metadata: (&str, usize),
) -> Result<Member, AllocError> {
    let kept = metadata.0.repeat(alloc, metadata.1)?;
    Ok(Member {
        key: key.0.repeat(alloc, key.1)?,
        value: value.0.repeat(alloc, value.1)?,
        metadata: BaggageMetadata::new(alloc, kept.as_str())?,
    })
}

#[test]
fn sixty_four_pairs_are_held(rt: HostRuntime) -> Result<(), Fail> {
    let alloc = rt.alloc();
    for way in WAYS {
        for (given, held) in [(63u32, 63usize), (64, 64), (65, 64)] {
            let mut members = Vec::new(alloc);
            for number in 0..given {
                members.push(Member {
                    key: format!(in alloc; "key{number}")?,
                    value: String::new(alloc),
                    metadata: BaggageMetadata::default(),
                })?;
            }
            let baggage = made(alloc, *way, members)?;
            let last = format!(in alloc; "key{}", held - 1)?;
            assert_eq!(rt; baggage.len(), held, "{way:?} of {given}");
            assert_eq!(rt;
                baggage.iter().last().map(|pair| pair.0.as_str()),
                Some(last.as_str()),
                "{way:?} of {given}"
            );
        }
    }
    Ok(())
}

/// The number of bytes of a member's key, value and metadata, and whether it is inserted.
type Row = (usize, usize, usize, bool);

/// Keys and values of 8191, 8192 and 8193 bytes in all.
const LONG: &[Row] = &[
    (1, 8190, 0, true),
    (1, 8191, 0, true),
    (1, 8192, 0, false),
    (8191, 0, 0, true),
    (8192, 0, 0, true),
    (8193, 0, 0, false),
    (4096, 4095, 0, true),
    (4096, 4096, 0, true),
    (4096, 4097, 0, false),
];

/// The same with metadata.
const LONG_METADATA: &[Row] = &[
    (1, 1, 8189, true),
    (1, 1, 8190, true),
    (1, 1, 8191, false),
    (2731, 2730, 2730, true),
    (2731, 2731, 2730, true),
    (2731, 2731, 2731, false),
];

fn assert_rows(rt: &impl Abort, alloc: Global, ways: &[Way], rows: &[Row]) -> Result<(), Fail> {
    for way in ways {
        for (key, value, metadata, is_held) in rows {
            let mut members = Vec::new(alloc);
            members.push(member_of(alloc, ("k", *key), (" ", *value), ("m", *metadata))?)?;
            let baggage = made(alloc, *way, members)?;
            let bytes = *key + *value + *metadata;
            assert_eq!(rt; !baggage.is_empty(), *is_held, "{way:?} of {bytes} bytes");
        }
    }
    Ok(())
}

#[test]
fn one_member_has_at_most_8192_bytes(rt: HostRuntime) -> Result<(), Fail> {
    assert_rows(&rt, rt.alloc(), WAYS, LONG)?;
    assert_rows(&rt, rt.alloc(), METADATA_WAYS, LONG_METADATA)
}

/// Members `a` and `b` of 4095 bytes each, and `c` with each of these values in turn.
fn three(alloc: Global, values: &[&'static str]) -> Result<Vec<Member>, AllocError> {
    let mut members = Vec::new(alloc);
    members.push(member_of(alloc, ("a", 1), ("x", 4094), ("", 0))?)?;
    members.push(member_of(alloc, ("b", 1), ("x", 4094), ("", 0))?)?;
    for value in values {
        members.push(member_of(alloc, ("c", 1), (*value, 1), ("", 0))?)?;
    }
    Ok(members)
}

/// The values that `c` gets in turn, and its final value: 8191, 8192 and 8193 bytes are accepted,
/// and a replacement counts without the replaced value.
const THIRD: &[(&[&str], &str)] = &[
    (&[""], ""),
    (&["."], "."),
    (&[".."], "none"),
    (&[".", "!"], "!"),
    (&[".", ".."], "."),
    (&["", ".", "..", ""], ""),
];

#[test]
fn members_have_at_most_8192_bytes_together(rt: HostRuntime) -> Result<(), Fail> {
    for way in WAYS {
        for (values, held) in THIRD {
            let baggage = made(rt.alloc(), *way, three(rt.alloc(), values)?)?;
            let third = baggage.get("c").map_or("none", |value| value.as_str());
            assert_eq!(rt; third, *held, "{way:?} of {values:?}");
            let others = baggage.get("a").is_some() && baggage.get("b").is_some();
            assert!(rt; others, "{way:?} of {values:?}");
        }
    }
    Ok(())
}

#[test]
fn the_longest_header_has_24575_bytes(rt: HostRuntime) -> Result<(), Fail> {
    let alloc = rt.alloc();
    for way in WAYS {
        for (spaces, bytes) in [(8190, 24572), (8191, 24575), (8192, 0)] {
            let mut members = Vec::new(alloc);
            members.push(member_of(alloc, ("k", 1), (" ", spaces), ("", 0))?)?;
            let baggage = made(alloc, *way, members)?;
            let header = format!(in alloc; "{baggage}")?;
            assert_eq!(rt; header.len(), bytes, "{way:?} of {spaces} spaces");
        }
    }
    Ok(())
}

/// A baggage with `k` and a value of `count` spaces, if it fits.
fn spaces(alloc: Global, count: usize) -> Result<Baggage, AllocError> {
    let mut baggage = Baggage::new(alloc);
    let value = StringValue::from(" ".repeat(alloc, count)?);
    drop(baggage.insert(Key::from("k"), value)?);
    Ok(baggage)
}

/// A baggage with `key0`, `key1` and so on, each with the empty value.
fn numbered(alloc: Global, count: u32) -> Result<Baggage, AllocError> {
    let mut pairs = Vec::new(alloc);
    for number in 0..count {
        let key = Key::from(format!(in alloc; "key{number}")?);
        pairs.push(KeyValue::new(key, Value::from("")))?;
    }
    Baggage::from_key_values(alloc, pairs)
}

/// `key0=,key1=` and so on, up to `count`.
fn members(alloc: Global, count: u32) -> Result<String, AllocError> {
    let mut text = String::new(alloc);
    for number in 0..count {
        let comma = if number == 0 { "" } else { "," };
        text.push_str(format!(in alloc; "{comma}key{number}=")?.as_str())?;
    }
    Ok(text)
}

#[test]
fn a_value_of_8192_bytes_is_refused(rt: HostRuntime) -> Result<(), Fail> {
    let mut baggage = baggage_of(rt.alloc(), &[("a", "1", "m")])?;
    let value = StringValue::from(" ".repeat(rt.alloc(), 8192)?);
    assert!(rt; baggage.insert(Key::from("k"), value)?.is_none());
    assert!(rt; baggage.get("k").is_none());
    assert_eq!(rt; printed(rt.alloc(), &baggage)?.as_str(), "a=1;m");
    Ok(())
}

#[test]
fn what_is_taken_out_is_free_again(rt: HostRuntime) -> Result<(), Fail> {
    let mut baggage = spaces(rt.alloc(), 8191)?;
    assert!(rt; baggage.remove("k").is_some());
    let value = StringValue::from(" ".repeat(rt.alloc(), 8191)?);
    assert!(rt; baggage.insert(Key::from("k"), value)?.is_none());
    assert_eq!(rt; printed(rt.alloc(), &baggage)?.len(), 24575);
    Ok(())
}

#[test]
fn one_key_may_hold_all(rt: HostRuntime) -> Result<(), Fail> {
    let mut baggage = spaces(rt.alloc(), 8191)?;
    assert!(rt;
        baggage
            .insert(Key::from("l"), StringValue::from(""))?
            .is_none()
    );
    assert_eq!(rt; text_of(baggage.get("l")), "none");
    assert_eq!(rt; printed(rt.alloc(), &baggage)?.len(), 24575);
    Ok(())
}

/// The insert over `c`, if the old value is the last byte that there is room for; the result; and
/// the baggage afterwards.
const OVER: &[(&str, &str, &str)] = &[
    ("..", "none", "."),
    ("!", ".", "!"),
    ("", "!", ""),
    ("..", "none", ""),
    ("?", "", "?"),
];

/// A baggage with `a`, `b` and `c`, which have 8192 bytes together.
fn full(alloc: Global) -> Result<Baggage, AllocError> {
    let mut baggage = Baggage::new(alloc);
    for key in ["a", "b"] {
        let value = StringValue::from("x".repeat(alloc, 4094)?);
        drop(baggage.insert(Key::from(key), value)?);
    }
    drop(baggage.insert(Key::from("c"), StringValue::from("."))?);
    Ok(baggage)
}

#[test]
fn a_replacement_is_tested_without_the_old_pair(rt: HostRuntime) -> Result<(), Fail> {
    let mut baggage = full(rt.alloc())?;
    for (value, old, now) in OVER {
        let answer = baggage.insert(Key::from("c"), StringValue::from(*value))?;
        assert_eq!(rt; text_of(answer.as_ref()), *old);
        assert_eq!(rt; text_of(baggage.get("c")), *now);
    }
    Ok(())
}

/// A key, a value and metadata, and whether `full` accepts them.
const ASKED: &[(&str, &str, &str, bool)] = &[
    ("c", "", "", true),
    ("c", "!", "", true),
    ("c", "", "!", true),
    ("c", "!", "!", false),
    ("C", "", "", false),
    ("d", "", "", false),
];

#[test]
fn accepts_what_an_insert_sets(rt: HostRuntime) -> Result<(), Fail> {
    let baggage = full(rt.alloc())?;
    for (key, value, metadata, accepted) in ASKED {
        assert_eq!(rt; baggage.accepts(key, value, metadata), *accepted);
    }
    let baggage = numbered(rt.alloc(), 64)?;
    assert!(rt; baggage.accepts("key63", "value", "metadata"));
    assert!(rt; !baggage.accepts("key64", "", ""));
    let baggage = Baggage::new(rt.alloc());
    let longest = " ".repeat(rt.alloc(), 8191)?;
    assert!(rt; baggage.accepts("k", longest.as_str(), ""));
    assert!(rt; !baggage.accepts("kk", longest.as_str(), ""));
    assert!(rt; !baggage.accepts("k", longest.as_str(), "m"));
    assert!(rt; !baggage.accepts("a b", "", ""));
    assert!(rt; !baggage.accepts("", "", ""));
    assert_eq!(rt; (MAX_KEY_VALUE_PAIRS, MAX_LEN_OF_ALL_PAIRS), (64, 8192));
    Ok(())
}

#[test]
fn long_keys_fill_it(rt: HostRuntime) -> Result<(), Fail> {
    let mut pairs = Vec::new(rt.alloc());
    for letter in ["a", "b", "c", "d"] {
        let key = Key::from(letter.repeat(rt.alloc(), 2730)?);
        pairs.push(KeyValue::new(key, Value::from("")))?;
    }
    let baggage = Baggage::from_key_values(rt.alloc(), pairs)?;
    assert_eq!(rt; baggage.len(), 3);
    // 8190 bytes, three `=` and two commas.
    assert_eq!(rt; printed(rt.alloc(), &baggage)?.len(), 8195);
    Ok(())
}

#[test]
fn sixty_four_pairs_are_printed_whole(rt: HostRuntime) -> Result<(), Fail> {
    let header = printed(rt.alloc(), &numbered(rt.alloc(), 64)?)?;
    assert_eq!(rt; header.as_str(), members(rt.alloc(), 64)?.as_str());
    Ok(())
}

#[test]
fn pairs_are_held_in_order(rt: HostRuntime) -> Result<(), Fail> {
    let baggage = numbered(rt.alloc(), 65)?;
    for (number, (key, _)) in baggage.iter().enumerate() {
        let name = format!(in rt.alloc(); "key{number}")?;
        assert_eq!(rt; key.as_str(), name.as_str());
    }
    Ok(())
}

#[test]
fn a_full_list_takes_a_replacement(rt: HostRuntime) -> Result<(), Fail> {
    let mut baggage = numbered(rt.alloc(), 64)?;
    drop(baggage.insert(Key::from("key5"), StringValue::from("new"))?);
    drop(baggage.insert(Key::from("late"), StringValue::from("1"))?);
    assert_eq!(rt; text_of(baggage.get("key5")), "new");
    assert_eq!(rt; text_of(baggage.get("late")), "none");
    Ok(())
}

#[test]
fn a_removal_makes_room_at_the_end(rt: HostRuntime) -> Result<(), Fail> {
    let mut baggage = numbered(rt.alloc(), 64)?;
    drop(baggage.remove("key0"));
    drop(baggage.insert(Key::from("late"), StringValue::from("1"))?);
    assert_eq!(rt; baggage.len(), 64);
    let header = printed(rt.alloc(), &baggage)?;
    assert!(rt; header.as_str().ends_with(",key63=,late=1"));
    Ok(())
}

/// A replaced key keeps its place. A key that was removed is inserted last.
#[test]
fn a_key_that_comes_back_goes_last(rt: HostRuntime) -> Result<(), Fail> {
    let mut baggage = Baggage::new(rt.alloc());
    for (key, value, old, header) in [
        ("a", "1", "none", "a=1"),
        ("b", "2", "none", "a=1,b=2"),
        ("c", "3", "none", "a=1,b=2,c=3"),
        ("a", "4", "1", "a=4,b=2,c=3"),
    ] {
        let replaced = baggage.insert(Key::from(key), StringValue::from(value))?;
        assert_eq!(rt; text_of(replaced.as_ref()), old);
        assert_eq!(rt; printed(rt.alloc(), &baggage)?.as_str(), header);
    }
    assert!(rt; baggage.remove("b").is_some());
    assert_eq!(rt; printed(rt.alloc(), &baggage)?.as_str(), "a=4,c=3");
    let replaced = baggage.insert(Key::from("b"), StringValue::from("2"))?;
    assert_eq!(rt; text_of(replaced.as_ref()), "none");
    assert_eq!(rt; printed(rt.alloc(), &baggage)?.as_str(), "a=4,c=3,b=2");
    Ok(())
}
