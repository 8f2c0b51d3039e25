//! Trace states that are made, changed and walked.
mod error;
mod limits;
mod reading;
mod repeated_keys;

use otel_ids::{TraceState, TraceStateError};
use std::alloc::{AllocError, Global};
use std::hash::{DefaultHasher, Hash, Hasher};
use std::test::Fail;

/// The header of the trace state, or the text of the error.
fn header_or_error(
    alloc: Global,
    outcome: Result<TraceState, TraceStateError>,
) -> Result<String, AllocError> {
    match outcome {
        Ok(state) => state.header(alloc),
        Err(TraceStateError::Memory(error)) => Err(error),
        Err(error) => format!(in alloc; "{error}"),
    }
}

/// The pairs `key0=value0` to one before `count`, joined by commas.
fn numbered(alloc: Global, count: u32) -> Result<String, AllocError> {
    let mut text = String::new(alloc);
    for i in 0..count {
        if i > 0 {
            text.push(',')?;
        }
        let pair = format!(in alloc; "key{i}=value{i}")?;
        text.push_str(pair.as_str())?;
    }
    Ok(text)
}

/// Whether the answer is the error on that key.
fn has_bad_key(answer: &Result<TraceState, TraceStateError>, key: &str) -> bool {
    matches!(answer, Err(TraceStateError::Key(text)) if text.as_str() == key)
}

/// Whether the answer is the error on that value.
fn has_bad_value(answer: &Result<TraceState, TraceStateError>, value: &str) -> bool {
    matches!(answer, Err(TraceStateError::Value(text)) if text.as_str() == value)
}

const KEYS: &[(&str, bool)] = &[
    ("123", true),
    ("bar", true),
    ("foo@bar", true),
    ("foo@012345678", true),
    ("foo@0123456789abcdef", false),
    ("FOO@BAR", false),
    ("\u{4f60}\u{597d}", false),
    ("k\u{e9}", false),
    ("t@abcdefghijkl", true),
    ("t@abcdefghijklm", true),
    ("t@abcdefghijklmn", false),
    ("t@", true),
    ("@a", false),
    ("a@b@c", false),
    ("a@@", false),
    ("a@-b", false),
    ("_a", false),
    ("a b", false),
    ("a\u{0}", false),
    ("", false),
];

/// The header of the state of that pair, or the error if the key isn't valid.
fn header_of(alloc: Global, key: &str, is_taken: bool) -> Result<String, AllocError> {
    if is_taken {
        format!(in alloc; "{key}=1")
    } else {
        format!(in alloc;
            "{key} is not a valid key in TraceState, see https://www.w3.org/TR/trace-context-2/#key for more details"
        )
    }
}

#[test]
fn these_keys_are_taken(rt: HostRuntime) -> Result<(), Fail> {
    let alloc = rt.alloc();
    for (key, is_taken) in KEYS {
        let want = header_of(alloc, key, *is_taken)?;
        let inserted = header_or_error(alloc, TraceState::NONE.insert(alloc, key, "1"))?;
        assert_eq!(rt; inserted.as_str(), want.as_str(), "insert of {key}");
        let given = header_or_error(alloc, TraceState::from_key_value(alloc, &[(key, "1")]))?;
        assert_eq!(rt; given.as_str(), want.as_str(), "the pair of {key}");
        assert_eq!(rt; TraceState::NONE.delete(alloc, key).is_ok(), *is_taken);
    }
    Ok(())
}

#[test]
fn an_insert_comes_first(rt: HostRuntime) -> Result<(), Fail> {
    let state = TraceState::from_str(rt.alloc(), "a=1,b=2")?;
    let inserted = header_or_error(rt.alloc(), state.insert(rt.alloc(), "b", "3"))?;
    assert_eq!(rt; inserted.as_str(), "b=3,a=1");
    assert_eq!(rt; state.get("b"), Some("2"));
    Ok(())
}

#[test]
fn what_was_inserted_is_deleted(rt: HostRuntime) -> Result<(), Fail> {
    let given = TraceState::from_str(rt.alloc(), "foo=,apple=banana")?;
    let state = given.insert(rt.alloc(), "apple", "banana-test")?;
    assert_eq!(rt;
        state.header(rt.alloc())?.as_str(),
        "apple=banana-test,foo="
    );
    let state = state.delete(rt.alloc(), "apple")?;
    assert_eq!(rt; state.get("apple"), None);
    assert_eq!(rt; state.header(rt.alloc())?.as_str(), "foo=");
    Ok(())
}

#[test]
fn a_refused_insert_reports_the_key_first(rt: HostRuntime) {
    let key = TraceState::NONE.insert(rt.alloc(), "Foo", "1=2");
    assert!(rt; has_bad_key(&key, "Foo"));
    let value = TraceState::NONE.insert(rt.alloc(), "foo", "1,2");
    assert!(rt; has_bad_value(&value, "1,2"));
}

#[test]
fn given_pairs_keep_their_order(rt: HostRuntime) -> Result<(), Fail> {
    let alloc = rt.alloc();
    let state = TraceState::from_key_value(alloc, &[("foo", ""), ("apple", "banana")])?;
    assert_eq!(rt; state.header(alloc)?.as_str(), "foo=,apple=banana");
    Ok(())
}

/// The state after this number of inserts: `key0=value0`, `key1=value1` and so on.
fn inserted(alloc: Global, count: u32) -> Result<TraceState, TraceStateError> {
    let mut state = TraceState::NONE;
    for i in 0..count {
        let key = format!(in alloc; "key{i}")?;
        let value = format!(in alloc; "value{i}")?;
        state = state.insert(alloc, key.as_str(), value.as_str())?;
    }
    Ok(state)
}

#[test]
fn inserts_beyond_32_drop_the_last(rt: HostRuntime) -> Result<(), Fail> {
    let state = inserted(rt.alloc(), 64)?;
    assert_eq!(rt; state.iter().len(), 32);
    for (i, pair) in state.iter().enumerate() {
        let number = 63 - i;
        let want = format!(in rt.alloc(); "key{number}=value{number}")?;
        assert_eq!(rt; want.as_str().split_once('='), Some(pair));
    }
    Ok(())
}

#[test]
fn a_full_state_takes_an_update(rt: HostRuntime) -> Result<(), Fail> {
    let updated = inserted(rt.alloc(), 32)?.insert(rt.alloc(), "key20", "updated")?;
    assert_eq!(rt; updated.iter().len(), 32);
    assert_eq!(rt; updated.iter().next(), Some(("key20", "updated")));
    assert_eq!(rt; updated.get("key0"), Some("value0"));
    Ok(())
}

/// 64 pairs: 31 of `a`, the one that is given, and what isn't looked at.
fn pairs_with(last: (&'static str, &'static str)) -> [(&'static str, &'static str); 64] {
    let mut pairs = [("a", "1"); 64];
    pairs[31] = last;
    pairs[32] = ("Bad", "=");
    pairs
}

#[test]
fn the_pair_at_the_limit_is_checked(rt: HostRuntime) {
    let pairs = pairs_with(("b", "="));
    assert!(rt; has_bad_value(&TraceState::from_key_value(rt.alloc(), &pairs), "="));
}

#[test]
fn of_64_pairs_the_first_32_are_taken(rt: HostRuntime) -> Result<(), Fail> {
    let alloc = rt.alloc();
    let text = numbered(alloc, 64)?;
    let mut pairs = Vec::new(alloc);
    for list_member in text.as_str().split(',') {
        if let Some(pair) = list_member.split_once('=') {
            pairs.push(pair)?;
        }
    }
    let state = TraceState::from_key_value(alloc, pairs.as_slice())?;
    assert_eq!(rt;
        state.header(alloc)?.as_str(),
        numbered(alloc, 32)?.as_str()
    );
    Ok(())
}

#[test]
fn there_is_one_empty_state(rt: HostRuntime) -> Result<(), Fail> {
    let none = TraceState::from_str(rt.alloc(), "a=1")?.delete(rt.alloc(), "a")?;
    assert!(rt; none == TraceState::NONE);
    assert!(rt; none == TraceState::default());
    assert!(rt; none == TraceState::from_key_value(rt.alloc(), &[])?);
    assert_eq!(rt; none.header(rt.alloc())?.as_str(), "");
    assert!(rt; none.iter().next().is_none());
    Ok(())
}

#[test]
fn states_equal_their_clones(rt: HostRuntime) -> Result<(), Fail> {
    let one = TraceState::from_str(rt.alloc(), "a=1")?;
    assert!(rt; one.clone()? == one);
    assert!(rt; one.delete(rt.alloc(), "b")? == one);
    assert!(rt; one != TraceState::NONE);
    Ok(())
}

#[test]
fn a_clone_is_walked_like_its_original(rt: HostRuntime) -> Result<(), Fail> {
    let original = TraceState::from_str(rt.alloc(), "a=1,bc=,d= 23")?;
    let copy = original.clone()?;
    drop(original);
    let mut walk = copy.iter();
    assert_eq!(rt; walk.next(), Some(("a", "1")));
    assert_eq!(rt; walk.next(), Some(("bc", "")));
    assert_eq!(rt; walk.next(), Some(("d", " 23")));
    assert_eq!(rt; walk.next(), None);
    assert_eq!(rt; walk.next(), None);
    Ok(())
}

#[test]
fn a_state_is_printed_for_debugging(rt: HostRuntime) -> Result<(), Fail> {
    let state = TraceState::from_str(rt.alloc(), "a=1,b=2")?;
    let mut walk = state.iter();
    let text = format!(in rt.alloc(); "{state:?} {walk:?}")?;
    assert_eq!(rt;
        text.as_str(),
        r#"TraceState("a=1,b=2") TraceStateIter("a=1,b=2")"#
    );
    walk.next();
    let one = format!(in rt.alloc(); "{walk:?}")?;
    walk.next();
    let none = format!(in rt.alloc(); "{walk:?} {:?}", TraceState::NONE)?;
    assert_eq!(rt; one.as_str(), r#"TraceStateIter("b=2")"#);
    assert_eq!(rt; none.as_str(), r#"TraceStateIter("") TraceState("")"#);
    Ok(())
}

/// The delimiter in a pair, the one between pairs, and the header then.
const DELIMITERS: &[(&str, &str, &str)] = &[
    (":", ";", "a:1;b:2"),
    ("", "", "a1b2"),
    (" = ", ", ", "a = 1, b = 2"),
];

#[test]
fn other_delimiters_are_printed(rt: HostRuntime) -> Result<(), Fail> {
    let state = TraceState::from_str(rt.alloc(), "a=1,b=2")?;
    for (entry, list, want) in DELIMITERS {
        let header = state.header_delimited(rt.alloc(), entry, list)?;
        assert_eq!(rt; header.as_str(), *want);
    }
    Ok(())
}

#[test]
fn long_delimiters_are_printed(rt: HostRuntime) -> Result<(), Fail> {
    let state = TraceState::from_str(rt.alloc(), "a=1,b=2")?;
    let long = "-".repeat(rt.alloc(), 100_000)?;
    let header = state.header_delimited(rt.alloc(), long.as_str(), "")?;
    assert_eq!(rt; header.len(), 200_004);
    Ok(())
}

#[test]
fn a_loop_goes_over_the_pairs_in_order(rt: HostRuntime) -> Result<(), Fail> {
    let state = TraceState::from_str(rt.alloc(), "a=1,b=2,c=3")?;
    let mut seen = String::new(rt.alloc());
    for (key, value) in &state {
        seen.push_str(key)?;
        seen.push_str(value)?;
    }
    assert_eq!(rt; seen.as_str(), "a1b2c3");
    Ok(())
}

#[test]
fn an_iterator_knows_how_many_are_left(rt: HostRuntime) -> Result<(), Fail> {
    let state = TraceState::from_str(rt.alloc(), "a=1,b=2,c=3")?;
    let mut walk = state.iter();
    assert_eq!(rt; walk.size_hint(), (3, Some(3)));
    assert_eq!(rt; walk.next(), Some(("a", "1")));
    assert_eq!(rt; walk.len(), 2);
    Ok(())
}

fn hash_of(state: &TraceState) -> u64 {
    let mut hasher = DefaultHasher::new();
    state.hash(&mut hasher);
    hasher.finish()
}

#[test]
fn equal_states_hash_alike(rt: HostRuntime) -> Result<(), Fail> {
    let alloc = rt.alloc();
    let read = TraceState::from_str(alloc, "a= 1 ,b=2")?;
    let given = TraceState::from_key_value(alloc, &[("a", " 1"), ("b", "2")])?;
    assert!(rt; read == given);
    assert_eq!(rt; hash_of(&read), hash_of(&given));
    let other = TraceState::from_key_value(alloc, &[("b", "2"), ("a", " 1")])?;
    assert!(rt; read != other);
    Ok(())
}
