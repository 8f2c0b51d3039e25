//! Batches of log records.
use crate::batches::scope;
use opentelemetry::logs::{AnyValue, LogRecord, Severity};
use opentelemetry::trace::{SpanId, TraceFlags, TraceId};
use opentelemetry::{InstrumentationScope, Key, KeyValue, StringValue, Value};
use otel_otlp::logs_text;
use otel_sdk::logs::{LogData, SdkLogRecord};
use otel_sdk::resource::Resource;
use std::alloc::{AllocError, Global};
use std::rc::Rc;
use std::test::Fail;

/// The record under the scope.
pub fn under(record: SdkLogRecord, scope: Rc<InstrumentationScope>) -> LogData {
    LogData {
        record,
        instrumentation_scope: scope,
    }
}

/// A record with only the moment at which it was observed.
pub fn observed(alloc: Global, moment: u64, scope: Rc<InstrumentationScope>) -> LogData {
    let mut record = SdkLogRecord::new(alloc);
    record.set_observed_timestamp(moment);
    under(record, scope)
}

/// A resource with only the name of the service.
pub fn cart_service(alloc: Global) -> Result<Resource, AllocError> {
    let name = KeyValue::new(Key::from("service.name"), Value::from("cart"));
    Ok(Resource::builder_empty(alloc).with_attribute(name)?.build())
}

/// A record with a source file and line, a timestamp set by hand, and the ids of the span `price`.
pub fn no_price(alloc: Global) -> Result<SdkLogRecord, AllocError> {
    let mut record = SdkLogRecord::new(alloc);
    record.set_severity_number(Severity::Error);
    record.set_severity_text("ERROR");
    record.set_body(AnyValue::from("no price for \"7\""));
    record.set_target(StringValue::from("cart::price"));
    record.set_timestamp(1_760_000_000_038_000_000);
    record.set_observed_timestamp(1_760_000_000_038_001_000);
    let given = vec![in alloc;
        (Key::from("item"), AnyValue::Int(7)),
        (Key::from("code.file.path"), AnyValue::from("src/price.rs")),
        (Key::from("code.line.number"), AnyValue::Int(41)),
        (Key::from("code.namespace"), AnyValue::from("cart::price")),
    ]?;
    record.add_attributes(alloc, given)?;
    record.set_trace_context(
        TraceId::from(0x4bf92f3577b34da6a3ce929d0e0e4736),
        SpanId::from(0xa000000000000003),
        Some(TraceFlags::new(3)),
    );
    Ok(record)
}

/// A batch with one record, under the scope `s` and without a resource: before the record.
const BEFORE: &'static str = "{\"resourceLogs\":[{\"resource\":{},\"scopeLogs\":[{\"logRecords\":[";

/// The same after the record.
const AFTER: &'static str = "],\"scope\":{\"name\":\"s\"}}]}]}";

/// The text of the record in a batch without a resource, under the scope `s`.
pub fn text_of(alloc: Global, record: SdkLogRecord) -> Result<String, Fail> {
    let batch = [under(record, scope(alloc, "s")?)];
    let text = logs_text(alloc, &Resource::builder_empty(alloc).build(), &batch)?;
    let record = text
        .as_str()
        .strip_prefix(BEFORE)
        .and_then(|rest| rest.strip_suffix(AFTER));
    Ok(String::from_str(alloc, record.ok_or("no record")?)?)
}
