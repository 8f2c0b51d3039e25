//! The attributes and the other parts of a log record.
use opentelemetry::logs::{AnyValue, LogRecord, Severity};
use opentelemetry::trace::{SpanId, TraceFlags, TraceId};
use opentelemetry::{Key, StringValue};
use otel_sdk_logs::SdkLogRecord;
use std::process::Abort;
use std::test::Fail;

/// Asserts that the record has these attributes, in order.
fn assert_attributes(rt: &impl Abort, record: &SdkLogRecord, wanted: &[(&str, AnyValue)]) {
    assert_eq!(rt; record.attributes.len(), wanted.len());
    for (is, wanted) in record.attributes.iter().zip(wanted.iter()) {
        assert_eq!(rt; is.0.as_str(), wanted.0);
        assert!(rt; is.1 == wanted.1);
    }
}

#[test]
fn the_last_value_of_a_key_stands_in_its_place(rt: HostRuntime) -> Result<(), Fail> {
    let alloc = rt.alloc();
    let mut record = SdkLogRecord::new(alloc);
    let mut given = Vec::new(alloc);
    given.push((Key::from("b"), AnyValue::Int(1)))?;
    given.push((Key::from("a"), AnyValue::from("x")))?;
    record.add_attributes(alloc, given)?;
    record.add_attribute(alloc, Key::from("b"), AnyValue::Int(2))?;
    let wanted = [("b", AnyValue::Int(2)), ("a", AnyValue::from("x"))];
    assert_attributes(&rt, &record, &wanted);
    assert_eq!(rt; record.dropped_attributes_count, 0);
    Ok(())
}

#[test]
fn a_record_has_at_most_128_attributes(rt: HostRuntime) -> Result<(), Fail> {
    let alloc = rt.alloc();
    let mut record = SdkLogRecord::new(alloc);
    let mut given = Vec::new(alloc);
    for number in 0..130 {
        let key = Key::from(format!(in alloc; "{number}")?);
        given.push((key, AnyValue::Int(number)))?;
    }
    record.add_attributes(alloc, given)?;
    assert_eq!(rt; record.attributes.len(), 128);
    assert_eq!(rt; record.dropped_attributes_count, 2);
    record.add_attribute(alloc, Key::from("128"), AnyValue::Int(0))?;
    assert_eq!(rt; record.dropped_attributes_count, 3);
    record.add_attribute(alloc, Key::from("127"), AnyValue::Int(0))?;
    assert_eq!(rt; record.attributes.len(), 128);
    assert_eq!(rt; record.dropped_attributes_count, 3);
    assert!(rt; record.attributes[127].1 == AnyValue::Int(0));
    Ok(())
}

/// Makes each call of a record that doesn't allocate.
fn tell<R: LogRecord>(record: &mut R) {
    record.set_event_name("started");
    record.set_target(StringValue::from("http::server"));
    record.set_timestamp(5);
    record.set_observed_timestamp(7);
    record.set_severity_text("warning");
    record.set_severity_number(Severity::Warn2);
    record.set_body(AnyValue::Int(3));
    record.set_trace_context(TraceId::from(1), SpanId::from(2), Some(TraceFlags::new(3)));
}

/// Asserts that the record holds the values that [`tell`] set.
fn assert_told(rt: &impl Abort, record: &SdkLogRecord) {
    assert!(rt; record.event_name == Some(StringValue::from("started")));
    assert!(rt; record.target == Some(StringValue::from("http::server")));
    assert_eq!(rt; record.timestamp, Some(5));
    assert_eq!(rt; record.observed_timestamp, Some(7));
    assert!(rt; record.severity_text == Some(StringValue::from("warning")));
    assert_eq!(rt; record.severity_number, Some(Severity::Warn2));
    assert!(rt; record.body == Some(AnyValue::Int(3)));
    let span = record.trace_context.expect(rt, "a span");
    assert_eq!(rt; span.trace_id, TraceId::from(1));
    assert_eq!(rt; span.span_id, SpanId::from(2));
    assert_eq!(rt; span.trace_flags, Some(TraceFlags::new(3)));
}

#[test]
fn all_that_is_set_is_there(rt: HostRuntime) -> Result<(), Fail> {
    let mut record = SdkLogRecord::new(rt.alloc());
    assert!(rt; record.body.is_none() && record.trace_context.is_none());
    tell(&mut record);
    assert_told(&rt, &record);
    assert!(rt; record.attributes.is_empty());
    Ok(())
}

#[test]
fn what_is_set_again_takes_the_place_of_the_first(rt: HostRuntime) -> Result<(), Fail> {
    let mut record = SdkLogRecord::new(rt.alloc());
    record.set_body(AnyValue::Int(4));
    record.set_severity_number(Severity::Fatal4);
    record.set_trace_context(TraceId::from(3), SpanId::from(4), None);
    tell(&mut record);
    assert_told(&rt, &record);
    Ok(())
}
