//! Log records, loggers and their providers that do nothing, called once each. The ones that record
//! are tested with the crate `otel_examples`.
use opentelemetry::logs::{
    AnyValue, LogRecord, Logger, LoggerProvider, NoopLogRecord, NoopLogger, NoopLoggerProvider,
    Severity,
};
use opentelemetry::{InstrumentationScope, Key, SpanId, StringValue, TraceId};
use std::alloc::{AllocError, Global};
use std::test::Fail;

/// Makes each call of a record that doesn't allocate.
fn tell<R: LogRecord>(record: &mut R) {
    record.set_event_name("started");
    record.set_target(StringValue::from("http::server"));
    record.set_timestamp(5);
    record.set_observed_timestamp(7);
    record.set_severity_text("warning");
    record.set_severity_number(Severity::Warn2);
    record.set_body(AnyValue::Int(3));
}

/// The attributes `b` and `c`.
fn two_attributes(alloc: Global) -> Result<Vec<(Key, AnyValue)>, AllocError> {
    let mut attributes = Vec::new(alloc);
    attributes.push((Key::from("b"), AnyValue::Int(2)))?;
    attributes.push((Key::from("c"), AnyValue::Boolean(true)))?;
    Ok(attributes)
}

#[test]
fn what_does_nothing_takes_all(rt: HostRuntime) -> Result<(), Fail> {
    let alloc = rt.alloc();
    let provider = NoopLoggerProvider::new().clone()?;
    let scope = InstrumentationScope::builder(StringValue::from("lib")).build(alloc)?;
    let logger: NoopLogger = provider.logger_with_scope(alloc, scope)?.clone()?;
    assert!(rt; !logger.event_enabled(Severity::Fatal4, "t", Some("n")));
    assert!(rt; !logger.event_enabled(Severity::Trace, "", None));
    let mut record: NoopLogRecord = logger.create_log_record(alloc)?.clone()?;
    tell(&mut record);
    record.add_attribute(alloc, Key::from("a"), AnyValue::Int(1))?;
    record.add_attributes(alloc, two_attributes(alloc)?)?;
    record.set_trace_context(TraceId::from(1), SpanId::from(2), None);
    logger.emit(record);
    let other = NoopLoggerProvider::default().logger(alloc, StringValue::from("lib"))?;
    other.emit(NoopLogRecord::default());
    Ok(())
}
