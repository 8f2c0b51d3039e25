//! The items that spans keep under their limits, with worked cases.
use opentelemetry::trace::{
    Event, Link, Span, SpanContext, SpanId, Status, TraceFlags, TraceId, TraceState,
};
use opentelemetry::{Array, Key, KeyValue, StringValue, Value};
use otel_sdk_span::{SdkSpan, SpanData, SpanLimits};
use std::alloc::{AllocError, Global};
use std::test::Fail;
use test_support::span_data;

fn attribute(key: &'static str, value: i64) -> KeyValue {
    KeyValue::new(Key::from(key), Value::from(value))
}

fn attributes(alloc: Global, given: &[(&'static str, i64)]) -> Result<Vec<KeyValue>, AllocError> {
    let mut attributes = Vec::new(alloc);
    for (key, value) in given {
        attributes.push(attribute(key, *value))?;
    }
    Ok(attributes)
}

fn context(span_id: u64) -> SpanContext {
    SpanContext::new(
        TraceId::from(9),
        SpanId::from(span_id),
        TraceFlags::SAMPLED,
        false,
        TraceState::NONE,
    )
}

/// The initial data of a span with these attributes, without events and links.
fn given(alloc: Global, held: &[(&'static str, i64)]) -> Result<SpanData, AllocError> {
    let mut given = span_data(alloc, 9, 1)?;
    given.span_context = context(9);
    given.start_time = 50;
    given.end_time = 50;
    given.attributes = attributes(alloc, held)?;
    Ok(given)
}

fn span(
    alloc: Global,
    held: &[(&'static str, i64)],
    limits: SpanLimits,
) -> Result<SdkSpan, AllocError> {
    SdkSpan::new(alloc, given(alloc, held)?, limits)
}

/// The attributes as `key=value`, each after a space.
fn shown(alloc: Global, attributes: &[KeyValue]) -> Result<String, AllocError> {
    let mut text = String::new(alloc);
    for attribute in attributes {
        text.push(' ')?;
        text.push_str(attribute.key.as_str())?;
        text.push('=')?;
        text.push_str(attribute.value.as_str(alloc)?.as_str())?;
    }
    Ok(text)
}

/// The attributes of the span, and the number of dropped attributes.
fn kept(alloc: Global, span: &SdkSpan) -> Result<(String, u32), AllocError> {
    match span.data() {
        Some(data) => Ok((
            shown(alloc, data.attributes.as_slice())?,
            data.dropped_attributes_count,
        )),
        None => Ok((String::new(alloc), 0)),
    }
}

fn up_to_attributes(max_attributes_per_span: u32) -> SpanLimits {
    SpanLimits {
        max_attributes_per_span,
        ..SpanLimits::default()
    }
}

#[test]
fn the_defaults_are_128_and_no_length(rt: HostRuntime) -> Result<(), Fail> {
    let limits = SpanLimits::default();
    assert_eq!(rt; limits.max_attributes_per_span, 128);
    assert_eq!(rt; limits.max_events_per_span, 128);
    assert_eq!(rt; limits.max_links_per_span, 128);
    assert_eq!(rt; limits.max_attributes_per_event, 128);
    assert_eq!(rt; limits.max_attributes_per_link, 128);
    assert!(rt; limits.max_attribute_length.is_none());
    Ok(())
}

#[test]
fn a_span_records_until_it_ends(rt: HostRuntime) -> Result<(), Fail> {
    let alloc = rt.alloc();
    let given = given(alloc, &[])?;
    let now = 60;

    let mut span = SdkSpan::new(alloc, given, SpanLimits::default())?;
    span.set_attribute(alloc, KeyValue::new(Key::from("k"), Value::I64(1)))?;
    span.end(now);

    let data = span.into_data().expect(&rt, "it records");
    assert_eq!(rt; shown(alloc, data.attributes.as_slice())?.as_str(), " k=1");
    assert_eq!(rt; data.end_time, 60);

    let limits = SpanLimits {
        max_attributes_per_span: 2,
        ..SpanLimits::default()
    };

    assert_eq!(rt; limits.max_attributes_per_span, 2);
    assert_eq!(rt; limits.max_events_per_span, 128);
    Ok(())
}

#[test]
fn the_first_attributes_stay(rt: HostRuntime) -> Result<(), Fail> {
    let alloc = rt.alloc();
    let mut span = span(alloc, &[("a", 1), ("b", 2), ("c", 3)], up_to_attributes(2))?;
    let (text, dropped) = kept(alloc, &span)?;
    assert_eq!(rt; text.as_str(), " a=1 b=2");
    assert_eq!(rt; dropped, 1);
    span.set_attribute(alloc, attribute("a", 9))?;
    let (text, dropped) = kept(alloc, &span)?;
    assert_eq!(rt; text.as_str(), " a=9 b=2");
    assert_eq!(rt; dropped, 1);
    span.set_attribute(alloc, attribute("c", 3))?;
    span.set_attribute(alloc, attribute("c", 4))?;
    let (text, dropped) = kept(alloc, &span)?;
    assert_eq!(rt; text.as_str(), " a=9 b=2");
    assert_eq!(rt; dropped, 3);
    Ok(())
}

#[test]
fn attributes_below_at_and_above_the_limit(rt: HostRuntime) -> Result<(), Fail> {
    let alloc = rt.alloc();
    let three = [("a", 1), ("b", 2), ("c", 3)];
    for (limit, text, dropped) in [
        (4, " a=1 b=2 c=3", 0),
        (3, " a=1 b=2 c=3", 0),
        (2, " a=1 b=2", 1),
        (0, "", 3),
    ] {
        let (held, count) = kept(alloc, &span(alloc, &three, up_to_attributes(limit))?)?;
        assert_eq!(rt; held.as_str(), text);
        assert_eq!(rt; count, dropped);
    }
    Ok(())
}

#[test]
fn a_key_that_is_there_keeps_its_place(rt: HostRuntime) -> Result<(), Fail> {
    let alloc = rt.alloc();
    let limits = SpanLimits::default();
    let (held, dropped) = kept(
        alloc,
        &span(alloc, &[("a", 1), ("b", 2), ("a", 3)], limits)?,
    )?;
    assert_eq!(rt; held.as_str(), " a=3 b=2");
    assert_eq!(rt; dropped, 0);
    Ok(())
}

#[test]
fn counts_stop_at_the_greatest(rt: HostRuntime) -> Result<(), Fail> {
    let alloc = rt.alloc();
    let mut given = given(alloc, &[("a", 1), ("b", 2)])?;
    given.dropped_attributes_count = u32::MAX - 1;
    let span = SdkSpan::new(alloc, given, up_to_attributes(0))?;
    let (_held, dropped) = kept(alloc, &span)?;
    assert_eq!(rt; dropped, u32::MAX);
    Ok(())
}

#[test]
fn the_first_events_stay(rt: HostRuntime) -> Result<(), Fail> {
    let alloc = rt.alloc();
    for (limit, held, dropped) in [(4, 3, 0), (3, 3, 0), (2, 2, 1), (1, 1, 2), (0, 0, 3)] {
        let limits = SpanLimits {
            max_events_per_span: limit,
            ..SpanLimits::default()
        };
        let mut span = span(alloc, &[], limits)?;
        for name in ["e1", "e2", "e3"] {
            span.add_event(alloc, StringValue::from(name), Vec::new(alloc), 7)?;
        }
        let data = span.into_data().expect(&rt, "it records");
        assert_eq!(rt; data.events.events.len(), held);
        assert_eq!(rt; data.events.dropped_count, dropped);
        if let Some(first) = data.events.events.first() {
            assert_eq!(rt; first.name.as_str(), "e1");
        }
    }
    Ok(())
}

#[test]
fn an_event_has_a_limit_of_its_own(rt: HostRuntime) -> Result<(), Fail> {
    let alloc = rt.alloc();
    let limits = SpanLimits {
        max_attributes_per_event: 1,
        ..SpanLimits::default()
    };
    let mut given = given(alloc, &[])?;
    let earlier = attributes(alloc, &[("x", 1), ("y", 2)])?;
    let event = Event::new(StringValue::from("earlier"), 6, earlier, 4);
    given.events.events.push(event)?;
    let mut span = SdkSpan::new(alloc, given, limits)?;
    let later = attributes(alloc, &[("x", 1), ("y", 2), ("x", 3)])?;
    span.add_event(alloc, StringValue::from("later"), later, 7)?;
    let data = span.into_data().expect(&rt, "it records");
    let events = data.events.events.as_slice();
    assert_eq!(rt; events.len(), 2);
    let (earlier, later) = (&events[0], &events[1]);
    assert_eq!(rt;
        shown(alloc, earlier.attributes.as_slice())?.as_str(),
        " x=1"
    );
    assert_eq!(rt; earlier.dropped_attributes_count, 5);
    assert_eq!(rt; shown(alloc, later.attributes.as_slice())?.as_str(), " x=3");
    assert_eq!(rt; later.dropped_attributes_count, 1);
    assert_eq!(rt; later.timestamp, 7);
    Ok(())
}

#[test]
fn the_first_links_stay(rt: HostRuntime) -> Result<(), Fail> {
    let alloc = rt.alloc();
    let limits = SpanLimits {
        max_links_per_span: 1,
        max_attributes_per_link: 1,
        ..SpanLimits::default()
    };
    let mut given = given(alloc, &[])?;
    let more = attributes(alloc, &[("x", 1), ("y", 2)])?;
    given.links.links.push(Link::new(context(1), more, 0))?;
    let mut span = SdkSpan::new(alloc, given, limits)?;
    span.add_link(alloc, context(2), Vec::new(alloc))?;
    let data = span.into_data().expect(&rt, "it records");
    assert_eq!(rt; data.links.dropped_count, 1);
    let links = data.links.links.as_slice();
    assert_eq!(rt; links.len(), 1);
    let link = &links[0];
    assert!(rt; link.span_context.span_id() == SpanId::from(1));
    assert_eq!(rt; shown(alloc, link.attributes.as_slice())?.as_str(), " x=1");
    assert_eq!(rt; link.dropped_attributes_count, 1);
    Ok(())
}

#[test]
fn a_link_to_nothing_needs_attributes(rt: HostRuntime) -> Result<(), Fail> {
    let alloc = rt.alloc();
    let mut span = span(alloc, &[], SpanLimits::default())?;
    span.add_link(alloc, SpanContext::NONE, Vec::new(alloc))?;
    let data = span.data().expect(&rt, "it records");
    assert_eq!(rt; data.links.links.len(), 0);
    assert_eq!(rt; data.links.dropped_count, 0);
    span.add_link(alloc, SpanContext::NONE, attributes(alloc, &[("k", 1)])?)?;
    let data = span.data().expect(&rt, "it records");
    assert_eq!(rt; data.links.links.len(), 1);
    Ok(())
}

/// A limit of characters, a text, and the text that the limit leaves.
const CUTS: [(u32, &'static str, &'static str); 6] = [
    (3, "h\u{e9}llo", "h\u{e9}l"),
    (1, "\u{1f44d}\u{1f44d}", "\u{1f44d}"),
    (1, "e\u{301}", "e"),
    (0, "a", ""),
    (3, "abc", "abc"),
    (2, "abc", "ab"),
];

#[test]
fn texts_are_cut_to_whole_characters(rt: HostRuntime) -> Result<(), Fail> {
    let alloc = rt.alloc();
    for (length, text, left) in CUTS {
        let limits = SpanLimits {
            max_attribute_length: Some(length),
            ..SpanLimits::default()
        };
        let mut span = span(alloc, &[], limits)?;
        let whole = Value::String(StringValue::from(text));
        span.set_attribute(alloc, KeyValue::new(Key::from("static"), whole))?;
        let owned = StringValue::from(String::from_str(alloc, text)?);
        span.set_attribute(
            alloc,
            KeyValue::new(Key::from("owned"), Value::String(owned)),
        )?;
        let data = span.into_data().expect(&rt, "it records");
        assert_eq!(rt; data.attributes.len(), 2);
        assert_eq!(rt; data.dropped_attributes_count, 0);
        for attribute in data.attributes.iter() {
            assert_eq!(rt; attribute.value.as_str(alloc)?.as_str(), left);
        }
    }
    Ok(())
}

#[test]
fn only_texts_are_cut(rt: HostRuntime) -> Result<(), Fail> {
    let alloc = rt.alloc();
    let limits = SpanLimits {
        max_attribute_length: Some(3),
        ..SpanLimits::default()
    };
    let mut span = span(alloc, &[("long key", 12345)], limits)?;
    let texts = vec![in alloc; StringValue::from("abcd"), StringValue::from("ab")]?;
    let array = Value::Array(Array::String(texts));
    span.set_attribute(alloc, KeyValue::new(Key::from("texts"), array))?;
    let (held, dropped) = kept(alloc, &span)?;
    assert_eq!(rt; held.as_str(), " long key=12345 texts=[\"abc\",\"ab\"]");
    assert_eq!(rt; dropped, 0);
    Ok(())
}

#[test]
fn nothing_changes_after_the_end(rt: HostRuntime) -> Result<(), Fail> {
    let alloc = rt.alloc();
    let mut span = span(alloc, &[("a", 1)], SpanLimits::default())?;
    assert!(rt; span.is_recording());
    assert!(rt; !span.has_ended());
    span.end(10);
    span.end(20);
    span.set_attribute(alloc, attribute("b", 2))?;
    span.add_event(alloc, StringValue::from("e"), Vec::new(alloc), 11)?;
    span.add_link(alloc, context(1), Vec::new(alloc))?;
    span.update_name(StringValue::from("other"));
    span.set_status(Status::Ok);
    assert!(rt; !span.is_recording());
    assert!(rt; span.has_ended());
    let data = span.into_data().expect(&rt, "it records");
    assert_eq!(rt; data.end_time, 10);
    assert_eq!(rt; data.attributes.len(), 1);
    assert_eq!(rt; data.events.events.len(), 0);
    assert_eq!(rt; data.links.links.len(), 0);
    assert_eq!(rt; data.name.as_str(), "work");
    assert!(rt; data.status == Status::Unset);
    Ok(())
}

#[test]
fn an_end_before_the_start_is_kept(rt: HostRuntime) -> Result<(), Fail> {
    let mut span = span(rt.alloc(), &[], SpanLimits::default())?;
    span.update_name(StringValue::from("other"));
    span.end(40);
    let data = span.into_data().expect(&rt, "it records");
    assert_eq!(rt; data.start_time, 50);
    assert_eq!(rt; data.end_time, 40);
    assert_eq!(rt; data.name.as_str(), "other");
    Ok(())
}

fn error(description: &'static str) -> Status {
    Status::error(StringValue::from(description))
}

#[test]
fn a_status_rises(rt: HostRuntime) -> Result<(), Fail> {
    let alloc = rt.alloc();
    let mut all = span(alloc, &[], SpanLimits::default())?;
    all.set_status(error("a"));
    all.set_status(Status::Ok);
    all.set_status(error("b"));
    all.set_status(Status::Unset);
    assert!(rt; all.data().expect(&rt, "it records").status == Status::Ok);
    for (first, second) in [("a", "b"), ("b", "a")] {
        let mut errors = span(alloc, &[], SpanLimits::default())?;
        errors.set_status(error(first));
        errors.set_status(error(second));
        assert!(rt; errors.data().expect(&rt, "it records").status == error("b"));
    }
    Ok(())
}

#[test]
fn an_error_is_an_event(rt: HostRuntime) -> Result<(), Fail> {
    let alloc = rt.alloc();
    let mut span = span(alloc, &[], SpanLimits::default())?;
    span.record_error(alloc, &StringValue::from("boom"), 7)?;
    let data = span.into_data().expect(&rt, "it records");
    let events = data.events.events.as_slice();
    assert_eq!(rt; events.len(), 1);
    let event = &events[0];
    assert_eq!(rt; event.name.as_str(), "exception");
    assert_eq!(rt; event.timestamp, 7);
    let text = shown(alloc, event.attributes.as_slice())?;
    assert_eq!(rt; text.as_str(), " exception.message=boom");
    assert!(rt; data.status == Status::Unset);
    Ok(())
}

#[test]
fn a_span_without_data_keeps_its_context(rt: HostRuntime) -> Result<(), Fail> {
    let alloc = rt.alloc();
    let mut span = SdkSpan::without_data(context(3));
    assert!(rt; !span.is_recording());
    span.set_attribute(alloc, attribute("a", 1))?;
    span.add_event(alloc, StringValue::from("e"), Vec::new(alloc), 7)?;
    span.add_link(alloc, context(1), Vec::new(alloc))?;
    span.set_status(Status::Ok);
    span.update_name(StringValue::from("other"));
    assert!(rt; !span.has_ended());
    span.end(9);
    assert!(rt; span.has_ended());
    assert!(rt; span.span_context().span_id() == SpanId::from(3));
    assert!(rt; span.data().is_none());
    assert!(rt; span.into_data().is_none());
    Ok(())
}
