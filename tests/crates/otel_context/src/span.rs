//! The effects of a span's provided calls.
use otel_base::{Key, KeyValue, StringValue, Value};
use otel_context::Span;
use otel_examples::recording::{Effect, RecordingSpan};
use std::cell::Cell;
use std::fmt;
use std::process::Abort;
use std::test::Fail;
use test_support::span;

/// An error that prints its text this many times.
#[derive(Drop)]
struct Boom {
    times: usize,
}

impl fmt::Display for Boom {
    fn fmt<W: fmt::Write>(&self, f: &mut fmt::Formatter<W>) -> fmt::Result {
        for _ in 0..self.times {
            f.write_str("boom")?;
        }
        Ok(())
    }
}

/// An error that can't print itself, and counts how often it was asked to.
#[derive(Drop)]
pub struct Silent {
    pub asked: Cell<u32>,
}

impl fmt::Display for Silent {
    fn fmt<W: fmt::Write>(&self, _f: &mut fmt::Formatter<W>) -> fmt::Result {
        self.asked.set(self.asked.get() + 1);
        Err(fmt::Error)
    }
}

fn whole(key: &'static str, value: i64) -> KeyValue {
    KeyValue::new(Key::from(key), Value::from(value))
}

/// Asserts that the only effect is an event `exception` at that time, whose message has this
/// length.
fn assert_exception(rt: &impl Abort, span: &RecordingSpan, moment: u64, length: usize) {
    let [Effect::Event(name, timestamp, attributes)] = span.effects() else {
        panic!(rt; "not one event")
    };
    assert_eq!(rt; name.as_str(), "exception");
    assert_eq!(rt; *timestamp, moment);
    let [attribute] = attributes.as_slice() else {
        panic!(rt; "not one attribute")
    };
    assert_eq!(rt; attribute.key.as_str(), "exception.message");
    match &attribute.value {
        Value::String(text) => assert_eq!(rt; text.as_str().len(), length),
        _ => panic!(rt; "not a text"),
    }
}

#[test]
fn an_error_is_an_event_with_its_text(rt: HostRuntime) -> Result<(), Fail> {
    let mut span = span(rt.alloc(), 1);
    span.record_error(rt.alloc(), &"boom", 7)?;
    assert_exception(&rt, &span, 7, 4);
    let [Effect::Event(_, _, attributes)] = span.effects() else {
        panic!(&rt; "not one event")
    };
    let boom = KeyValue::new(Key::from("exception.message"), Value::from("boom"));
    assert!(rt; attributes[0] == boom);
    Ok(())
}

#[test]
fn an_error_may_print_a_long_text(rt: HostRuntime) -> Result<(), Fail> {
    let mut span = span(rt.alloc(), 1);
    span.record_error(rt.alloc(), &Boom { times: 5000 }, 8)?;
    assert_exception(&rt, &span, 8, 20000);
    Ok(())
}

#[test]
fn an_error_that_fails_to_print_is_no_event(rt: HostRuntime) -> Result<(), Fail> {
    let mut span = span(rt.alloc(), 1);
    let silent = Silent {
        asked: Cell::new(0),
    };
    assert!(rt; span.record_error(rt.alloc(), &silent, 7).is_err());
    assert_eq!(rt; silent.asked.get(), 1);
    assert!(rt; span.effects().is_empty());
    Ok(())
}

#[test]
fn an_error_is_no_event_where_the_span_does_not_record(rt: HostRuntime) -> Result<(), Fail> {
    let mut span = span(rt.alloc(), 1);
    span.stop();
    span.record_error(rt.alloc(), &"boom", 7)?;
    assert!(rt; span.effects().is_empty());
    Ok(())
}

#[test]
fn an_error_is_not_asked_for_its_text_if_the_span_does_not_record(
    rt: HostRuntime,
) -> Result<(), Fail> {
    let mut span = span(rt.alloc(), 1);
    span.stop();
    let silent = Silent {
        asked: Cell::new(0),
    };
    span.record_error(rt.alloc(), &silent, 7)?;
    assert_eq!(rt; silent.asked.get(), 0);
    assert!(rt; span.effects().is_empty());
    Ok(())
}

#[test]
fn both_attributes_are_set_where_the_first_stops_the_recording(
    rt: HostRuntime,
) -> Result<(), Fail> {
    let mut span = span(rt.alloc(), 1);
    span.stop_at_attribute();
    span.set_attributes(
        rt.alloc(),
        vec![in rt.alloc(); whole("a", 1), whole("b", 2)]?,
    )?;
    assert!(rt; !span.is_recording());
    assert_eq!(rt; span.effects().len(), 2);
    span.set_attributes(rt.alloc(), vec![in rt.alloc(); whole("c", 3)]?)?;
    assert_eq!(rt; span.effects().len(), 2);
    Ok(())
}

#[test]
fn attributes_up_to_a_failed_request_are_set(rt: HostRuntime) -> Result<(), Fail> {
    let mut span = span(rt.alloc(), 1);
    span.fail_after(1);
    let given = vec![in rt.alloc(); whole("a", 1), whole("b", 2)]?;
    assert!(rt; span.set_attributes(rt.alloc(), given).is_err());
    assert!(rt; matches!(span.effects(), [Effect::Attribute(set)] if set.key.as_str() == "a"));
    Ok(())
}

#[test]
fn an_event_and_the_end_have_the_moment_that_is_handed_in(rt: HostRuntime) -> Result<(), Fail> {
    let mut span = span(rt.alloc(), 1);
    let none = Vec::new(rt.alloc());
    span.add_event(rt.alloc(), StringValue::from("now"), none, 3)?;
    span.end(9);
    assert!(rt; matches!(span.effects(), [Effect::Event(_, 3, _)]));
    assert_eq!(rt; span.ended(), Some(9));
    Ok(())
}
