//! The limits of a trace state, one below, at and above, by each call that can meet them.

use crate::trace_state::{has_bad_key, has_bad_value, numbered};
use otel_ids::{TraceState, TraceStateError};
use std::alloc::{AllocError, Global};
use std::process::Abort;
use std::test::Fail;

/// The calls that make a state of one pair.
#[derive(Clone, Copy, Debug)]
enum Way {
    FromStr,
    FromKeyValue,
    Insert,
}

const WAYS: &[Way] = &[Way::FromStr, Way::FromKeyValue, Way::Insert];

fn made(alloc: Global, way: Way, key: &str, value: &str) -> Result<TraceState, TraceStateError> {
    match way {
        Way::FromStr => {
            let text = format!(in alloc; "{key}={value}")?;
            TraceState::from_str(alloc, text.as_str())
        }
        Way::FromKeyValue => TraceState::from_key_value(alloc, &[(key, value)]),
        Way::Insert => TraceState::NONE.insert(alloc, key, value),
    }
}

/// The number of bytes of a key or a value, and whether it is accepted.
const BYTES: &[(usize, bool)] = &[(255, true), (256, true), (257, false)];

/// The number of bytes after the `@` of a key, and whether the key is accepted.
const AFTER_AT: &[(usize, bool)] = &[(12, true), (13, true), (14, false)];

/// Asserts that each call accepts the key, or reports it.
fn assert_key(rt: &impl Abort, alloc: Global, key: &str, is_taken: bool) {
    for way in WAYS {
        let answer = made(alloc, *way, key, "1");
        assert_eq!(rt; answer.is_ok(), is_taken, "{way:?} of {key}");
        assert_eq!(rt; has_bad_key(&answer, key), !is_taken, "{way:?} of {key}");
    }
    let deleted = TraceState::NONE.delete(alloc, key);
    assert_eq!(rt; deleted.is_ok(), is_taken, "delete of {key}");
    assert_eq!(rt; has_bad_key(&deleted, key), !is_taken, "delete of {key}");
}

#[test]
fn a_key_has_at_most_256_bytes(rt: HostRuntime) -> Result<(), Fail> {
    for (count, is_taken) in BYTES {
        let key = "k".repeat(rt.alloc(), *count)?;
        assert_key(&rt, rt.alloc(), key.as_str(), *is_taken);
    }
    Ok(())
}

#[test]
fn at_most_13_bytes_stand_after_the_at_sign(rt: HostRuntime) -> Result<(), Fail> {
    for (count, is_taken) in AFTER_AT {
        let system = "s".repeat(rt.alloc(), *count)?;
        let key = format!(in rt.alloc(); "t@{system}")?;
        assert_key(&rt, rt.alloc(), key.as_str(), *is_taken);
    }
    Ok(())
}

#[test]
fn a_value_has_at_most_256_bytes(rt: HostRuntime) -> Result<(), Fail> {
    for (count, is_taken) in BYTES {
        let value = "v".repeat(rt.alloc(), *count)?;
        for way in WAYS {
            let answer = made(rt.alloc(), *way, "k", value.as_str());
            assert_eq!(rt; answer.is_ok(), *is_taken, "{way:?} of {count} bytes");
            assert_eq!(rt;
                has_bad_value(&answer, value.as_str()),
                !*is_taken,
                "{way:?} of {count} bytes"
            );
        }
    }
    Ok(())
}

/// The pairs of a text of pairs that are joined by commas.
fn pairs_of(alloc: Global, text: &str) -> Result<Vec<(&str, &str)>, AllocError> {
    let mut pairs = Vec::new(alloc);
    for list_member in text.split(',') {
        if let Some(pair) = list_member.split_once('=') {
            pairs.push(pair)?;
        }
    }
    Ok(pairs)
}

/// Inserts the pairs one after another.
fn insert_all(alloc: Global, pairs: &[(&str, &str)]) -> Result<TraceState, TraceStateError> {
    let mut state = TraceState::NONE;
    for (key, value) in pairs {
        state = state.insert(alloc, key, value)?;
    }
    Ok(state)
}

/// Asserts how many pairs the state has, and the numbers of its first and its last one.
fn assert_ends(
    rt: &impl Abort,
    alloc: Global,
    state: &TraceState,
    count: usize,
    ends: (usize, usize),
) -> Result<(), AllocError> {
    let first = format!(in alloc; "key{}", ends.0)?;
    let last = format!(in alloc; "key{}", ends.1)?;
    assert_eq!(rt; state.iter().len(), count);
    assert_eq!(rt;
        state.iter().next().map(|pair| pair.0),
        Some(first.as_str())
    );
    assert_eq!(rt; state.iter().last().map(|pair| pair.0), Some(last.as_str()));
    Ok(())
}

/// How many pairs are given, and how many a state holds: the first of those that it is made of, and
/// the last of those that are inserted.
const PAIRS: &[(usize, usize)] = &[(31, 31), (32, 32), (33, 32)];

#[test]
fn a_state_has_at_most_32_pairs(rt: HostRuntime) -> Result<(), Fail> {
    let alloc = rt.alloc();
    for (given, held) in PAIRS {
        let text = numbered(alloc, *given as u32)?;
        let pairs = pairs_of(alloc, text.as_str())?;
        let read = TraceState::from_str(alloc, text.as_str())?;
        assert_ends(&rt, alloc, &read, *held, (0, *held - 1))?;
        let listed = TraceState::from_key_value(alloc, pairs.as_slice())?;
        assert_ends(&rt, alloc, &listed, *held, (0, *held - 1))?;
        let inserted = insert_all(alloc, pairs.as_slice())?;
        assert_ends(&rt, alloc, &inserted, *held, (*given - 1, *given - *held))?;
    }
    Ok(())
}

#[test]
fn a_full_state_stays_where_an_insert_is_refused(rt: HostRuntime) -> Result<(), Fail> {
    let alloc = rt.alloc();
    let text = numbered(alloc, 32)?;
    let state = TraceState::from_str(alloc, text.as_str())?;
    let long = "k".repeat(alloc, 257)?;
    assert!(rt; has_bad_key(&state.insert(alloc, long.as_str(), ""), long.as_str()));
    assert!(rt; has_bad_value(&state.insert(alloc, "key0", long.as_str()), long.as_str()));
    assert_eq!(rt; state.header(alloc)?.as_str(), text.as_str());
    Ok(())
}

/// So many pairs with keys and values of 256 bytes, as a text.
fn longest(alloc: Global, count: u32) -> Result<String, AllocError> {
    let key = "k".repeat(alloc, 253)?;
    let value = "v".repeat(alloc, 256)?;
    let mut text = String::new(alloc);
    for number in 0..count {
        let comma = if number == 0 { "" } else { "," };
        text.push_str(format!(in alloc; "{comma}{number:03}{key}={value}")?.as_str())?;
    }
    Ok(text)
}

#[test]
fn a_header_has_at_most_16447_bytes(rt: HostRuntime) -> Result<(), Fail> {
    let alloc = rt.alloc();
    for (count, bytes) in [(31u32, 15933), (32, 16447), (33, 16447)] {
        let text = longest(alloc, count)?;
        let read = TraceState::from_str(alloc, text.as_str())?;
        assert_eq!(rt; read.header(alloc)?.len(), bytes, "read of {count}");
        let pairs = pairs_of(alloc, text.as_str())?;
        let listed = TraceState::from_key_value(alloc, pairs.as_slice())?;
        assert!(rt; listed == read, "of {count}");
        let inserted = insert_all(alloc, pairs.as_slice())?;
        assert_eq!(rt; inserted.header(alloc)?.len(), bytes, "inserts of {count}");
    }
    Ok(())
}
