//! The exporter in memory: the records that it keeps, also after a shutdown.
use crate::processor::data;
use opentelemetry::logs::{AnyValue, LogRecord, Severity};
use opentelemetry::trace::{SpanId, TraceFlags, TraceId};
use opentelemetry::{Key, StringValue};
use otel_sdk_base::Exporter;
use otel_sdk_base::error::OTelSdkError;
use otel_sdk_logs::{EmittedLogs, InMemoryLogExporter, LogData};
use std::alloc::{AllocError, Global};
use std::rc::Rc;
use std::test::Fail;

/// A record with every part set.
fn whole(alloc: Global) -> Result<LogData, AllocError> {
    let mut given = data(alloc, 1)?;
    let record = &mut given.record;
    record.set_event_name("paid");
    record.set_target(StringValue::from("cart"));
    record.set_observed_timestamp(2);
    record.set_severity_text("WARN");
    record.set_severity_number(Severity::Warn);
    record.set_body(AnyValue::from("no price"));
    record.add_attribute(alloc, Key::from("item"), AnyValue::Int(7))?;
    let flags = Some(TraceFlags::SAMPLED);
    record.set_trace_context(TraceId::from(3), SpanId::from(4), flags);
    Ok(given)
}

#[test]
fn a_copy_has_each_part(rt: HostRuntime) -> Result<(), Fail> {
    let alloc = rt.alloc();
    let given = whole(alloc)?;
    let copy = given.clone()?;
    let record = &copy.record;
    assert!(rt; record.event_name == Some(StringValue::from("paid")));
    assert!(rt; record.target == Some(StringValue::from("cart")));
    assert_eq!(rt; record.timestamp, Some(1));
    assert_eq!(rt; record.observed_timestamp, Some(2));
    assert!(rt; record.severity_text == Some(StringValue::from("WARN")));
    assert!(rt; matches!(record.severity_number, Some(Severity::Warn)));
    assert!(rt; record.body == Some(AnyValue::from("no price")));
    assert_eq!(rt; record.attributes.len(), 1);
    assert!(rt; record.attributes[0].0 == Key::from("item"));
    assert!(rt; record.attributes[0].1 == AnyValue::Int(7));
    let Some(context) = record.trace_context else {
        assert!(rt; false, "no span");
        return Ok(());
    };
    assert_eq!(rt; context.trace_id, TraceId::from(3));
    assert_eq!(rt; context.span_id, SpanId::from(4));
    assert_eq!(rt; context.trace_flags, Some(TraceFlags::SAMPLED));
    assert_eq!(rt; Rc::strong_count(&given.instrumentation_scope), 2);
    Ok(())
}

#[test]
fn batches_are_kept_until_they_are_let_go(rt: HostRuntime) -> Result<(), Fail> {
    let alloc = rt.alloc();
    let mut exporter = InMemoryLogExporter::new(alloc);
    assert!(rt; exporter.export(&[data(alloc, 1)?, data(alloc, 2)?]).is_ok());
    assert!(rt; exporter.export(&[data(alloc, 3)?]).is_ok());
    assert!(rt; exporter.force_flush().is_ok());
    let kept = exporter.get_emitted_logs()?;
    assert_eq!(rt; kept.len(), 3);
    for (number, given) in kept.iter().enumerate() {
        assert_eq!(rt; given.record.timestamp, Some(number as u64 + 1));
    }
    exporter.reset();
    assert_eq!(rt; exporter.get_emitted_logs()?.len(), 0);
    assert!(rt; exporter.export(&[data(alloc, 4)?]).is_ok());
    assert!(rt; exporter.shutdown().is_ok());
    assert_eq!(rt; exporter.get_emitted_logs()?.len(), 0);
    let refused = exporter.export(&[data(alloc, 5)?]);
    assert!(rt; matches!(refused, Err(OTelSdkError::AlreadyShutdown)));
    Ok(())
}
