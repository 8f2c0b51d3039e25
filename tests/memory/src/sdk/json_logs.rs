//! Log records as lines of JSON.
use crate::lines::Lines;
use crate::sdk::json::{closed, resource, told};
use opentelemetry::logs::{AnyValue, LogRecord, Severity};
use opentelemetry::trace::{SpanId, TraceFlags, TraceId};
use opentelemetry::{InstrumentationScope, Key, StringValue};
use otel_otlp::{OtlpJsonLogExporter, logs_text, read_logs, read_resource_logs};
use otel_sdk::logs::{LogData, SdkLogRecord};
use otel_sdk::trace::Exporter;
use std::alloc::{AllocError, Global};
use std::io;
use std::rc::Rc;

pub fn play<R: Print>(alloc: Global, lines: &Lines<'_, R>) {
    if lines.begin("json-log-exporter-new") {
        lines.answer_named("made", OtlpJsonLogExporter::new(alloc, io::sink()));
    }
    if lines.begin("json-log-exporter-export") {
        lines.end(export(alloc, lines));
    }
    if lines.begin("json-log-exporter-refusals") {
        lines.end(refusals(alloc, lines));
    }
    if lines.begin("json-logs-text") {
        lines.end(text(alloc, lines));
    }
    if lines.begin("json-read-resource-logs") {
        lines.end(read_groups(alloc, lines));
    }
    if lines.begin("json-read-logs") {
        lines.end(read(alloc, lines));
    }
}

/// A body with a value of each kind.
fn body(alloc: Global) -> Result<AnyValue, AllocError> {
    let inner = vec![in alloc;
        AnyValue::Int(1),
        AnyValue::Boolean(true),
        AnyValue::bytes(alloc, b"\xff\xfe")?,
    ]?;
    let pairs = vec![in alloc;
        (Key::from("a"), AnyValue::list(alloc, inner)?),
        (Key::from("b"), AnyValue::from("v")),
    ]?;
    AnyValue::map(alloc, pairs)
}

/// A record with every part.
pub fn full(alloc: Global) -> Result<LogData, AllocError> {
    let mut record = SdkLogRecord::new(alloc);
    record.set_event_name("e");
    record.set_target(StringValue::from("t"));
    record.set_timestamp(1);
    record.set_observed_timestamp(2);
    record.set_severity_text("WARN");
    record.set_severity_number(Severity::Warn);
    record.set_body(body(alloc)?);
    record.add_attribute(alloc, Key::from("k"), AnyValue::from("v"))?;
    record.set_trace_context(TraceId::from(1), SpanId::from(2), Some(TraceFlags::SAMPLED));
    let scope = InstrumentationScope::builder(StringValue::from("s")).build(alloc)?;
    Ok(LogData {
        record,
        instrumentation_scope: Rc::new(alloc, scope)?,
    })
}

fn export<R: Print>(alloc: Global, lines: &Lines<'_, R>) -> Result<(), AllocError> {
    let batch = [full(alloc)?];
    let mut exporter = OtlpJsonLogExporter::new(alloc, io::sink())?;
    lines.answer_named("written", exporter.export(&batch));
    lines.free_ok("OtlpJsonExporter::force_flush", exporter.force_flush());
    lines.free_ok("OtlpJsonExporter::shutdown", exporter.shutdown());
    Ok(())
}

/// Calls whose writer fails.
fn refusals<R: Print>(alloc: Global, lines: &Lines<'_, R>) -> Result<(), AllocError> {
    let batch = [full(alloc)?];
    let mut exporter = OtlpJsonLogExporter::new(alloc, closed())?;
    lines.answer(&told(exporter.export(&batch)));
    lines.free(
        "OtlpJsonExporter::force_flush",
        &told(exporter.force_flush()),
    );
    lines.free("OtlpJsonExporter::shutdown", &told(exporter.shutdown()));
    Ok(())
}

fn text<R: Print>(alloc: Global, lines: &Lines<'_, R>) -> Result<(), AllocError> {
    let resource = resource(alloc)?;
    let batch = [full(alloc)?];
    lines.answer_of(logs_text(alloc, &resource, &batch));
    Ok(())
}

fn read_groups<R: Print>(alloc: Global, lines: &Lines<'_, R>) -> Result<(), AllocError> {
    let line = logs_text(alloc, &resource(alloc)?, &[full(alloc)?])?;
    let read = read_resource_logs(alloc, line.as_str());
    lines.answer_of(read.map(|groups| groups.len()));
    Ok(())
}

fn read<R: Print>(alloc: Global, lines: &Lines<'_, R>) -> Result<(), AllocError> {
    let line = logs_text(alloc, &resource(alloc)?, &[full(alloc)?])?;
    let read = read_logs(alloc, line.as_str());
    lines.answer_of(read.map(|records| records.len()));
    Ok(())
}
