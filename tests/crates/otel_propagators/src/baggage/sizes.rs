//! Long `baggage` headers: the limits of a baggage, and headers that are made to cost much.
use crate::baggage::{extracted, holds, injected};
use opentelemetry::baggage::Baggage;
use opentelemetry::{Context, Key, StringValue};
use std::alloc::{AllocError, Global};
use std::process::Abort;
use std::test::Fail;

/// The number of members and the number of bytes of keys, values and metadata read from the header.
fn sizes(alloc: Global, header: &str) -> Result<(usize, usize), AllocError> {
    let context = extracted(alloc, &Context::new(), header)?;
    let Some(baggage) = context.baggage() else {
        return Err(AllocError);
    };
    let mut bytes = 0usize;
    for (key, pair) in baggage.iter() {
        let texts = [key.as_str(), pair.0.as_str(), pair.1.as_str()];
        for text in texts {
            bytes = bytes.saturating_add(text.len());
        }
    }
    Ok((baggage.len(), bytes))
}

/// `k0=v,k1=v` and so on.
fn numbered(alloc: Global, members: usize) -> Result<String, AllocError> {
    let mut header = String::new(alloc);
    for i in 0..members {
        let member = format!(in alloc; "k{i}=v,")?;
        header.push_str(member.as_str())?;
    }
    Ok(header)
}

#[test]
fn the_first_64_keys_are_taken(rt: HostRuntime) -> Result<(), Fail> {
    let alloc = rt.alloc();
    for (members, taken) in [(63usize, 63usize), (64, 64), (65, 64), (10_000, 64)] {
        let header = numbered(alloc, members)?;
        assert_eq!(rt; sizes(alloc, header.as_str())?.0, taken);
    }
    // A present key is replaced, even in a full baggage.
    let mut header = numbered(alloc, 65)?;
    header.push_str("k64=x,k3=new;p")?;
    let context = extracted(alloc, &Context::new(), header.as_str())?;
    let baggage = context.baggage().ok_or(AllocError)?;
    assert_eq!(rt; baggage.get("k3").map(|value| value.as_str()), Some("new"));
    assert_eq!(rt; baggage.get("k63").map(|value| value.as_str()), Some("v"));
    assert!(rt; baggage.get("k64").is_none());
    Ok(())
}

/// A byte of the value as it is in the header, and how often it is repeated; then the number of
/// members that are read, and their bytes. The key is `k`, and `z=1` follows.
const LENGTHS: &[(&str, usize, usize, usize)] = &[
    ("x", 8189, 2, 8192),
    ("x", 8190, 1, 8191),
    ("x", 8191, 1, 8192),
    ("x", 8192, 1, 2),
    // Three bytes in the header count for one.
    ("%20", 8189, 2, 8192),
    ("%20", 8191, 1, 8192),
    ("%20", 8192, 1, 2),
    ("%20", 341, 2, 344),
    ("%20", 342, 2, 345),
    ("%20", 1025, 2, 1028),
    // A `%` without digits is a byte.
    ("%", 1023, 2, 1026),
    ("%", 1024, 2, 1027),
    ("%", 1025, 2, 1028),
    ("%", 8191, 1, 8192),
    ("%", 8192, 1, 2),
];

#[test]
fn the_bytes_of_values_are_limited(rt: HostRuntime) -> Result<(), Fail> {
    let alloc = rt.alloc();
    for (text, times, members, bytes) in LENGTHS {
        let value = text.repeat(alloc, *times)?;
        let header = format!(in alloc; "k={value},z=1")?;
        assert_eq!(rt;
            sizes(alloc, header.as_str())?,
            (*members, *bytes),
            "{times} of {text:?}"
        );
    }
    Ok(())
}

#[test]
fn the_bytes_of_keys_and_metadata_count(rt: HostRuntime) -> Result<(), Fail> {
    let alloc = rt.alloc();
    for (times, members, bytes) in [(8191usize, 1usize, 8192usize), (8192, 1, 2)] {
        let text = "x".repeat(alloc, times)?;
        let metadata = format!(in alloc; "k=; {text} ,z=1")?;
        assert_eq!(rt; sizes(alloc, metadata.as_str())?, (members, bytes));
        let key = format!(in alloc; "{text}=v,z=1")?;
        assert_eq!(rt; sizes(alloc, key.as_str())?, (members, bytes));
    }
    // A member that is replaced doesn't count.
    let long = "x".repeat(alloc, 8191)?;
    let header = format!(in alloc; "k={long},k=1,z=2")?;
    let context = extracted(alloc, &Context::new(), header.as_str())?;
    assert!(rt; holds(&context, &[("k", "1", ""), ("z", "2", "")]));
    Ok(())
}

/// The runs of `tests/long` read ten times as many.
const MANY: usize = 100_000;

/// The start, the repeated text, the number of repetitions, the end, and the numbers of members and
/// bytes that are read.
type Row = (
    &'static str,
    &'static str,
    usize,
    &'static str,
    usize,
    usize,
);

const MANY_PIECES: &[Row] = &[
    ("", ",", MANY, "", 0, 0),
    ("", " , ", 10_000, "a=1", 1, 2),
    ("", "a=1,", 10_000, "", 1, 2),
    ("", "a=%ff,", 10_000, "b=1", 1, 2),
    ("", "(=1,", 10_000, "b=1", 1, 2),
];

const LONG_VALUES: &[Row] = &[
    ("a=", "%", MANY, ",b=1", 1, 2),
    ("a=", "%2", MANY, ",b=1", 1, 2),
    ("a=", "%20", MANY, ",b=1", 1, 2),
    ("a=", " ", MANY, "1,b=1", 2, 4),
    ("", "=", MANY, "", 0, 0),
];

const LONG_KEYS_AND_METADATA: &[Row] = &[
    ("", "k", MANY, "=1,b=1", 1, 2),
    ("", "\u{e9}", MANY, "=1,b=1", 1, 2),
    ("", ";", MANY, "", 0, 0),
    ("a=1;", "p", MANY, ",b=1", 1, 2),
    ("a=1;", " ", MANY, ",b=1", 2, 4),
];

fn assert_read(rt: &impl Abort, alloc: Global, rows: &[Row]) -> Result<(), Fail> {
    for (before, text, times, after, members, bytes) in rows {
        let mut header = String::from_str(alloc, *before)?;
        header.push_str(text.repeat(alloc, *times)?.as_str())?;
        header.push_str(*after)?;
        assert_eq!(rt;
            sizes(alloc, header.as_str())?,
            (*members, *bytes),
            "{times} of {text:?}"
        );
    }
    Ok(())
}

#[test]
fn many_pieces_are_read(rt: HostRuntime) -> Result<(), Fail> {
    assert_read(&rt, rt.alloc(), MANY_PIECES)
}

#[test]
fn long_values_are_skipped(rt: HostRuntime) -> Result<(), Fail> {
    assert_read(&rt, rt.alloc(), LONG_VALUES)
}

#[test]
fn long_keys_and_metadata_are_skipped(rt: HostRuntime) -> Result<(), Fail> {
    assert_read(&rt, rt.alloc(), LONG_KEYS_AND_METADATA)
}

/// The number of bytes of each key and each value of a full baggage, and of its header. The values
/// are spaces, each of them three bytes in the header.
const FULL: &[(usize, usize, usize)] = &[
    // One key of a byte: 1 + 1 + 3 * 8191.
    (1, 8191, 24575),
    // 64 keys of two bytes, each with a value of 126 bytes: 64 * (2 + 1 + 3 * 126) + 63.
    (2, 126, 24447),
];

#[test]
fn the_longest_header_goes_there_and_back(rt: HostRuntime) -> Result<(), Fail> {
    let alloc = rt.alloc();
    for (key_bytes, value_bytes, bytes) in FULL {
        let members = 8192 / (*key_bytes + *value_bytes);
        let value = " ".repeat(alloc, *value_bytes)?;
        let escaped = "%20".repeat(alloc, *value_bytes)?;
        let mut baggage = Baggage::new(alloc);
        let mut header = String::new(alloc);
        for number in 10..10 + members {
            let digits = format!(in alloc; "{number}")?;
            let name = &digits.as_str()[2 - *key_bytes..];
            let comma = if number == 10 { "" } else { "," };
            header.push_str(format!(in alloc; "{comma}{name}={escaped}")?.as_str())?;
            let key = Key::from(String::from_str(alloc, name)?);
            drop(baggage.insert(key, StringValue::from(value.clone()?))?);
        }
        assert_eq!(rt; header.len(), *bytes);
        assert_eq!(rt; baggage.len(), members);
        let context = Context::new().with_baggage(alloc, baggage)?;
        let text = injected(alloc, &context)?;
        assert_eq!(rt; text.as_str(), header.as_str());
        let arrived = extracted(alloc, &Context::new(), header.as_str())?;
        let baggage = arrived.baggage().ok_or(AllocError)?;
        assert_eq!(rt; baggage.len(), members);
        for (_, (text, metadata)) in baggage.iter() {
            assert!(rt; text.as_str() == value.as_str() && metadata.as_str().is_empty());
        }
        assert_eq!(rt; injected(alloc, &arrived)?.as_str(), header.as_str());
    }
    Ok(())
}
