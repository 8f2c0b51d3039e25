//! Texts that are read as trace states.

use crate::trace_state::{has_bad_key, has_bad_value, header_or_error, numbered};
use otel_ids::{TraceState, TraceStateError};
use std::alloc::{AllocError, Global};
use std::test::Fail;

/// A text, and the header of the state that it reads as.
const HEADERS: &[(&str, &str)] = &[
    ("", ""),
    (" ", ""),
    (" \t ", ""),
    (" a=1 ,,\tb=2", "a=1,b=2"),
    ("rojo=1 \t, congo=2", "rojo=1,congo=2"),
    ("rojo=1, ,\t,congo=2", "rojo=1,congo=2"),
    ("rojo= 1 , congo=  2\t", "rojo= 1,congo=  2"),
    ("foo===bar", "foo=bar"),
    ("a=", "a="),
    ("a=1;b", "a=1;b"),
    (
        "a=\u{1}\u{7f} \u{e9}\u{4f60}",
        "a=\u{1}\u{7f} \u{e9}\u{4f60}",
    ),
    ("a=\u{a0}", "a=\u{a0}"),
    ("0@a=x,a_-*/z=@", "0@a=x,a_-*/z=@"),
    (",,,,,,,,,,,,,,,,,,,,,,,,,,,,,,,a=1", "a=1"),
    (",,,,,,,,,,,,,,,,,,,,,,,,,,,,,,,,a=1", ""),
    (",,,,,,,,,,,,,,,,,,,,,,,,,,,,,,,,x", ""),
];

#[test]
fn texts_read_as_these_headers(rt: HostRuntime) -> Result<(), Fail> {
    for (text, header) in HEADERS {
        let read = header_or_error(rt.alloc(), TraceState::from_str(rt.alloc(), text))?;
        assert_eq!(rt; read.as_str(), *header, "of {text}");
    }
    assert!(rt; TraceState::from_str(rt.alloc(), " \t ")? == TraceState::NONE);
    Ok(())
}

fn fault(alloc: Global, bad: &str, kind: &str, section: &str) -> Result<String, AllocError> {
    format!(in alloc;
        "{bad} is not a valid {kind} in TraceState, see https://www.w3.org/TR/trace-context-2/#{section} for more details"
    )
}

/// A text, and the bad part that it has, with its kind and the section on it.
const FAULTS: &[(&str, &str, &str, &str)] = &[
    ("foo=bar=baz", "bar=baz", "value", "value"),
    ("=x", "", "key", "key"),
    ("=", "", "key", "key"),
    ("Foo=1,bar", "bar", "list member", "list"),
    ("Foo=1,b=2=3", "Foo", "key", "key"),
    ("b=2=3,Foo=1", "2=3", "value", "value"),
    ("foo = 1", "foo ", "key", "key"),
    ("a\tb=1", "a\tb", "key", "key"),
    ("\u{a0}a=1", "\u{a0}a", "key", "key"),
    (
        ",,,,,,,,,,,,,,,,,,,,,,,,,,,,,,,x",
        "x",
        "list member",
        "list",
    ),
];

#[test]
fn texts_have_these_faults(rt: HostRuntime) -> Result<(), Fail> {
    for (text, bad, kind, section) in FAULTS {
        let read = header_or_error(rt.alloc(), TraceState::from_str(rt.alloc(), text))?;
        let want = fault(rt.alloc(), bad, kind, section)?;
        assert_eq!(rt; read.as_str(), want.as_str(), "of {text}");
    }
    Ok(())
}

#[test]
fn errors_hold_the_text_that_stood_there(rt: HostRuntime) {
    assert!(rt; has_bad_key(&TraceState::from_str(rt.alloc(), "a=1, B =2"), "B "));
    assert!(rt; has_bad_value(&TraceState::from_str(rt.alloc(), "a=1=2 ,B=1"), "1=2"));
    let list = TraceState::from_str(rt.alloc(), "A=1,\t b ");
    assert!(rt; matches!(&list, Err(TraceStateError::List(text)) if text.as_str() == "b"));
}

#[test]
fn the_first_32_pieces_are_read(rt: HostRuntime) -> Result<(), Fail> {
    let alloc = rt.alloc();
    let first = numbered(alloc, 32)?;
    for count in [32, 33, 64] {
        let text = numbered(alloc, count)?;
        let read = header_or_error(alloc, TraceState::from_str(alloc, text.as_str()))?;
        assert_eq!(rt; read.as_str(), first.as_str());
    }
    let fewer = numbered(alloc, 31)?;
    let read = header_or_error(alloc, TraceState::from_str(alloc, fewer.as_str()))?;
    assert_eq!(rt; read.as_str(), fewer.as_str());
    Ok(())
}

/// The text a million times: ten times a tenth of it, and so on.
fn million(alloc: Global, text: &str) -> Result<String, AllocError> {
    let mut all = String::from_str(alloc, text)?;
    for _ in 0..6 {
        all = all.repeat(alloc, 10)?;
    }
    Ok(all)
}

#[test]
fn long_texts_are_read_at_once(rt: HostRuntime) -> Result<(), Fail> {
    for text in [",", " "] {
        let long = million(rt.alloc(), text)?;
        assert!(rt; TraceState::from_str(rt.alloc(), long.as_str())? == TraceState::NONE);
    }
    Ok(())
}

#[test]
fn many_blanks_after_a_value_are_cut_at_once(rt: HostRuntime) -> Result<(), Fail> {
    let blanks = million(rt.alloc(), " ")?;
    let text = format!(in rt.alloc(); "a=1{blanks}")?;
    let read = header_or_error(rt.alloc(), TraceState::from_str(rt.alloc(), text.as_str()))?;
    assert_eq!(rt; read.as_str(), "a=1");
    Ok(())
}

#[test]
fn many_equals_signs_stand_for_one(rt: HostRuntime) -> Result<(), Fail> {
    let equals = "=".repeat(rt.alloc(), 1_000)?;
    let text = format!(in rt.alloc(); "a{equals}")?;
    let read = header_or_error(rt.alloc(), TraceState::from_str(rt.alloc(), text.as_str()))?;
    assert_eq!(rt; read.as_str(), "a=");
    Ok(())
}

/// A state of 32 pairs, each as long as may be.
fn longest(alloc: Global) -> Result<TraceState, Fail> {
    let most = "x".repeat(alloc, 253)?;
    let value = "x".repeat(alloc, 256)?;
    let mut state = TraceState::NONE;
    for i in 0..32 {
        let key = format!(in alloc; "{i:03}{most}")?;
        state = state.insert(alloc, key.as_str(), value.as_str())?;
    }
    Ok(state)
}

#[test]
fn the_longest_header_reads_as_its_state(rt: HostRuntime) -> Result<(), Fail> {
    let state = longest(rt.alloc())?;
    let header = state.header(rt.alloc())?;
    assert_eq!(rt; header.len(), 16447);
    assert!(rt; TraceState::from_str(rt.alloc(), header.as_str())? == state);
    Ok(())
}

#[test]
fn trailing_blanks_of_a_value_are_cut_by_reading(rt: HostRuntime) -> Result<(), Fail> {
    let alloc = rt.alloc();
    let state = TraceState::from_key_value(alloc, &[("foo", "bar  ")])?;
    let header = state.header(alloc)?;
    assert_eq!(rt; header.as_str(), "foo=bar  ");
    let read = TraceState::from_str(alloc, header.as_str())?;
    assert_eq!(rt; read.get("foo"), Some("bar"));
    Ok(())
}
