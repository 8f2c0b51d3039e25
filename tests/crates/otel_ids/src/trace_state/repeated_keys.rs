//! Pairs whose key an earlier pair has: they are checked, counted and left out.

use crate::trace_state::{has_bad_key, has_bad_value, header_or_error, numbered};
use otel_ids::{TraceState, TraceStateError};
use std::alloc::{AllocError, Global};
use std::test::Fail;

/// A text, and the header of the state that it reads as.
const HEADERS: &[(&str, &str)] = &[
    ("a=1,a=2", "a=1"),
    ("a=1,a=1", "a=1"),
    ("a=1,b=2,a=3", "a=1,b=2"),
    ("a=1,b=2,b=3,a=4,c=5", "a=1,b=2,c=5"),
    (" a=1 ,\ta==2,a=", "a=1"),
    ("a=1, ,a=2,b=3", "a=1,b=3"),
    (",a=1,,\t,a=2,", "a=1"),
    ("a=1,ab=2,a=3,ab=4,b=5", "a=1,ab=2,b=5"),
    ("a@b=1,a=2,a@=3,a@b=4", "a@b=1,a=2,a@=3"),
    ("a=,a=1", "a="),
    (",,,,,,,,,,,,,,,,,,,,,,,,,,,,,,a=1,a=2,b=3", "a=1"),
];

#[test]
fn the_first_pair_of_each_key_is_read(rt: HostRuntime) -> Result<(), Fail> {
    for (text, header) in HEADERS {
        let read = header_or_error(rt.alloc(), TraceState::from_str(rt.alloc(), text))?;
        assert_eq!(rt; read.as_str(), *header, "of {text}");
    }
    Ok(())
}

/// So many times `a=1,`, and the end.
fn after(alloc: Global, count: usize, end: &str) -> Result<String, AllocError> {
    let mut text = "a=1,".repeat(alloc, count)?;
    text.push_str(end)?;
    Ok(text)
}

/// The number of times that `a=1` is given, the text after it, and the resulting header.
const COUNTED: &[(usize, &str, &str)] = &[
    (30, "a=2,b=3", "a=1,b=3"),
    (31, "b=2", "a=1,b=2"),
    (31, "a=2,b=3", "a=1"),
    (32, "b=2", "a=1"),
    (32, "a=x=y", "a=1"),
    (32, "a", "a=1"),
    (31, " ,B=2", "a=1"),
];

#[test]
fn pairs_that_are_left_out_count(rt: HostRuntime) -> Result<(), Fail> {
    for (count, end, header) in COUNTED {
        let text = after(rt.alloc(), *count, end)?;
        let read = header_or_error(rt.alloc(), TraceState::from_str(rt.alloc(), text.as_str()))?;
        assert_eq!(rt; read.as_str(), *header, "of {text}");
    }
    Ok(())
}

#[test]
fn a_pair_that_is_left_out_is_the_32nd_piece(rt: HostRuntime) -> Result<(), Fail> {
    let alloc = rt.alloc();
    let first = numbered(alloc, 31)?;
    let text = format!(in alloc; "{first},key0=other,b=2")?;
    let read = header_or_error(alloc, TraceState::from_str(alloc, text.as_str()))?;
    assert_eq!(rt; read.as_str(), first.as_str());
    Ok(())
}

#[test]
fn pairs_that_are_left_out_are_checked(rt: HostRuntime) -> Result<(), Fail> {
    let alloc = rt.alloc();
    let list = TraceState::from_str(alloc, "a=1,a");
    assert!(rt; matches!(&list, Err(TraceStateError::List(text)) if text.as_str() == "a"));
    let later = TraceState::from_str(alloc, "a=1,a=x=y,a");
    assert!(rt; matches!(&later, Err(TraceStateError::List(text)) if text.as_str() == "a"));
    assert!(rt; has_bad_value(&TraceState::from_str(alloc, "a=1,a=x=y"), "x=y"));
    assert!(rt; has_bad_value(&TraceState::from_str(alloc, "a=1,a=x=y,B=2"), "x=y"));
    assert!(rt; has_bad_key(&TraceState::from_str(alloc, "a=1,A=2"), "A"));
    assert!(rt; has_bad_key(&TraceState::from_str(alloc, "a=1,a=2,B=3"), "B"));
    let at_limit = after(alloc, 31, "a=x=y")?;
    assert!(rt; has_bad_value(&TraceState::from_str(alloc, at_limit.as_str()), "x=y"));
    Ok(())
}

/// The length of the common start of two keys, the rest of each, and whether both are read.
const ALIKE: &[(usize, &str, &str, bool)] = &[
    (255, "a", "b", true),
    (255, "a", "a", false),
    (254, "ab", "ba", true),
    (255, "", "b", true),
    (256, "", "", false),
];

#[test]
fn long_keys_differ_in_one_byte(rt: HostRuntime) -> Result<(), Fail> {
    let alloc = rt.alloc();
    for (count, one, other, are_both_read) in ALIKE {
        let front = "k".repeat(alloc, *count)?;
        let first = format!(in alloc; "{front}{one}=1")?;
        let both = format!(in alloc; "{first},{front}{other}=2")?;
        let want = if *are_both_read { &both } else { &first };
        let read = header_or_error(alloc, TraceState::from_str(alloc, both.as_str()))?;
        assert_eq!(rt; read.as_str(), want.as_str());
        let again = TraceState::from_str(alloc, read.as_str())?;
        assert_eq!(rt; again.header(alloc)?.as_str(), want.as_str());
    }
    Ok(())
}

#[test]
fn the_pair_of_a_key_is_changed(rt: HostRuntime) -> Result<(), Fail> {
    let alloc = rt.alloc();
    let read = TraceState::from_str(alloc, "a=1,a=2")?;
    assert_eq!(rt; read.get("a"), Some("1"));
    assert_eq!(rt;
        read.insert(alloc, "a", "3")?.header(alloc)?.as_str(),
        "a=3"
    );
    assert!(rt; read.delete(alloc, "a")? == TraceState::NONE);
    assert!(rt; read == TraceState::from_str(alloc, "a=1")?);
    Ok(())
}

#[test]
fn an_insert_into_a_full_state_leaves_one_pair_of_its_key(rt: HostRuntime) -> Result<(), Fail> {
    let alloc = rt.alloc();
    let text = numbered(alloc, 32)?;
    let full = TraceState::from_str(alloc, text.as_str())?;
    for (key, value) in &full {
        let changed = full.insert(alloc, key, "new")?;
        assert_eq!(rt; changed.iter().len(), 32);
        assert_eq!(rt; changed.iter().next(), Some((key, "new")));
        let older = full.iter().filter(|pair| pair.0 != key);
        for (kept, pair) in changed.iter().skip(1).zip(older) {
            assert_eq!(rt; kept, pair);
        }
        assert_eq!(rt; full.get(key), Some(value));
    }
    Ok(())
}

#[test]
fn the_first_of_the_given_pairs_stays(rt: HostRuntime) -> Result<(), Fail> {
    let alloc = rt.alloc();
    let state = TraceState::from_key_value(alloc, &[("a", "1"), ("b", "2"), ("a", "3")])?;
    assert_eq!(rt; state.header(alloc)?.as_str(), "a=1,b=2");
    let value = TraceState::from_key_value(alloc, &[("a", "1"), ("a", "=")]);
    assert!(rt; has_bad_value(&value, "="));
    let key = TraceState::from_key_value(alloc, &[("a", "1"), ("a", "2"), ("A", "3")]);
    assert!(rt; has_bad_key(&key, "A"));
    Ok(())
}

/// How many pairs are given, `a` 31 times, then the pair, and the header of the state.
const GIVEN: &[(usize, (&str, &str), &str)] = &[
    (31, ("b", "2"), "a=1"),
    (32, ("b", "2"), "a=1,b=2"),
    (33, ("b", "2"), "a=1,b=2"),
    (64, ("b", "2"), "a=1,b=2"),
    (64, ("a", "2"), "a=1"),
];

#[test]
fn given_pairs_that_are_left_out_count(rt: HostRuntime) -> Result<(), Fail> {
    let alloc = rt.alloc();
    for (count, last, header) in GIVEN {
        let mut pairs = [("a", "1"); 64];
        pairs[31] = *last;
        pairs[32] = ("Bad", "=");
        let state = TraceState::from_key_value(alloc, &pairs[..*count])?;
        assert_eq!(rt; state.header(alloc)?.as_str(), *header);
    }
    Ok(())
}
