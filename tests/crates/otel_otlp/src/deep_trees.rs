//! Log records whose values nest deeper than an exporter writes.
use crate::records::text_of;
use opentelemetry::Key;
use opentelemetry::logs::{AnyValue, LogRecord};
use otel_sdk::logs::SdkLogRecord;
use std::alloc::{AllocError, Global};
use std::test::Fail;

// So many lists within each other, around the value.
fn in_lists(alloc: Global, levels: usize, value: AnyValue) -> Result<AnyValue, AllocError> {
    let mut tree = value;
    for _ in 0..levels {
        tree = AnyValue::list(alloc, vec![in alloc; tree]?)?;
    }
    Ok(tree)
}

// So many maps within each other, around the value, each with the key `k`.
fn in_maps(alloc: Global, levels: usize, value: AnyValue) -> Result<AnyValue, AllocError> {
    let mut tree = value;
    for _ in 0..levels {
        tree = AnyValue::map(alloc, vec![in alloc; (Key::from("k"), tree)]?)?;
    }
    Ok(tree)
}

// The text inside this number of nested pairs of `open` and `close`.
fn within(
    alloc: Global,
    levels: usize,
    open: &str,
    inner: &str,
    close: &str,
) -> Result<String, AllocError> {
    let mut text = String::new(alloc);
    for _ in 0..levels {
        text.push_str(open)?;
    }
    text.push_str(inner)?;
    for _ in 0..levels {
        text.push_str(close)?;
    }
    Ok(text)
}

// The text of this number of nested lists.
fn lists(alloc: Global, levels: usize, inner: &str) -> Result<String, AllocError> {
    within(alloc, levels, "{\"arrayValue\":{\"values\":[", inner, "]}}")
}

// The text of this number of nested maps.
fn maps(alloc: Global, levels: usize, inner: &str) -> Result<String, AllocError> {
    let open = "{\"kvlistValue\":{\"values\":[{\"key\":\"k\",\"value\":";
    within(alloc, levels, open, inner, "}]}}")
}

// The text of a record with only this body.
fn with_body(alloc: Global, body: AnyValue) -> Result<String, Fail> {
    let mut record = SdkLogRecord::new(alloc);
    record.set_body(body);
    text_of(alloc, record)
}

const ONE: &'static str = "{\"intValue\":\"1\"}";

const CUT: &'static str = "{\"stringValue\":\"..\"}";

#[test]
fn twenty_nine_levels_are_written(rt: HostRuntime) -> Result<(), Fail> {
    let alloc = rt.alloc();
    let text = with_body(alloc, in_lists(alloc, 29, AnyValue::Int(1))?)?;
    let inner = lists(alloc, 29, ONE)?;
    let wanted = format!(in alloc; "{{\"body\":{inner}}}")?;
    assert_eq!(rt; text.as_str(), wanted.as_str());
    let text = with_body(alloc, in_maps(alloc, 29, AnyValue::Int(1))?)?;
    let inner = maps(alloc, 29, ONE)?;
    let wanted = format!(in alloc; "{{\"body\":{inner}}}")?;
    assert_eq!(rt; text.as_str(), wanted.as_str());
    Ok(())
}

#[test]
fn deeper_lists_and_maps_are_cut(rt: HostRuntime) -> Result<(), Fail> {
    let alloc = rt.alloc();
    for levels in [30usize, 31, 1_000, 1_500] {
        let text = with_body(alloc, in_lists(alloc, levels, AnyValue::Int(1))?)?;
        let inner = lists(alloc, 29, CUT)?;
        let wanted = format!(in alloc; "{{\"body\":{inner},\"droppedAttributesCount\":1}}")?;
        assert_eq!(rt; text.as_str(), wanted.as_str());
    }
    for levels in [30usize, 1_000] {
        let text = with_body(alloc, in_maps(alloc, levels, AnyValue::Int(1))?)?;
        let inner = maps(alloc, 29, CUT)?;
        let wanted = format!(in alloc; "{{\"body\":{inner},\"droppedAttributesCount\":1}}")?;
        assert_eq!(rt; text.as_str(), wanted.as_str());
    }
    Ok(())
}

#[test]
fn each_part_that_is_cut_counts(rt: HostRuntime) -> Result<(), Fail> {
    let alloc = rt.alloc();
    let list = in_lists(alloc, 1, AnyValue::Int(1))?;
    let map = in_maps(alloc, 2, AnyValue::Int(1))?;
    let parts = AnyValue::list(alloc, vec![in alloc; list, AnyValue::Int(1), map]?)?;
    let mut record = SdkLogRecord::new(alloc);
    record.set_body(in_lists(alloc, 28, parts)?);
    record.add_attribute(alloc, Key::from("a"), in_maps(alloc, 30, AnyValue::Int(1))?)?;
    record.dropped_attributes_count = 4;
    let text = text_of(alloc, record)?;
    let of_body = lists(alloc, 29, format!(in alloc; "{CUT},{ONE},{CUT}")?.as_str())?;
    let of_attribute = maps(alloc, 29, CUT)?;
    let wanted = format!(in alloc;
        "{{\"attributes\":[{{\"key\":\"a\",\"value\":{of_attribute}}}],\"body\":{of_body},\"droppedAttributesCount\":7}}"
    )?;
    assert_eq!(rt; text.as_str(), wanted.as_str());
    Ok(())
}

#[test]
fn the_count_stays_at_its_greatest(rt: HostRuntime) -> Result<(), Fail> {
    let alloc = rt.alloc();
    let mut record = SdkLogRecord::new(alloc);
    record.set_body(in_lists(alloc, 30, AnyValue::Int(1))?);
    record.dropped_attributes_count = u32::MAX;
    let text = text_of(alloc, record)?;
    let inner = lists(alloc, 29, CUT)?;
    let wanted = format!(in alloc; "{{\"body\":{inner},\"droppedAttributesCount\":4294967295}}")?;
    assert_eq!(rt; text.as_str(), wanted.as_str());
    Ok(())
}
