//! Calls of the sink for the crate `log` that allocate.
use crate::lines::Lines;
use log::kv::ToValue;
use log::{Level, Log, Metadata, Record};
use opentelemetry::logs::Severity;
use opentelemetry::trace::SpanContext;
use opentelemetry::{Context, InstrumentationScope, StringValue};
use otel_appender_log::{
    OpenTelemetryLogBridge, SourceLocation, attribute_value, attributes_of, bridged_record,
};
use otel_examples::recording::RecordingLogger;
use std::alloc::{AllocError, Global};

pub fn play<R: Print>(alloc: Global, lines: &Lines<'_, R>) {
    if lines.begin("bridge-attribute-value") {
        lines.answer_named("a value", attribute_value(alloc, &"v".to_value()));
    }
    if lines.begin("bridge-attributes-of") {
        lines.answer_of(attributes_of(alloc, &("k", "v")).map(|made| made.len()));
    }
    if lines.begin("bridge-record") {
        lines.end(made(alloc, lines));
    }
    if lines.begin("bridge-sink") {
        lines.end(logged(alloc, lines));
    }
}

/// A bridge to a logger that accepts only errors.
fn bridge(alloc: Global) -> Result<OpenTelemetryLogBridge<RecordingLogger>, AllocError> {
    let scope = InstrumentationScope::builder(StringValue::from("app")).build(alloc)?;
    let logger = RecordingLogger::new(alloc, scope, Severity::Error);
    Ok(OpenTelemetryLogBridge::new(alloc, logger))
}

/// A record with one pair.
fn source(level: Level) -> Record<'static, &'static str, (&'static str, &'static str)> {
    Record::new(Metadata::new(level, "t"), "m", ("k", "v"), ())
}

fn made<R: Print>(alloc: Global, lines: &Lines<'_, R>) -> Result<(), AllocError> {
    let bridge = bridge(alloc)?;
    let place = SourceLocation {
        file: Some("src/a.rs"),
        line: Some(1),
        module: Some("a"),
    };
    let (logger, none) = (&bridge.logger, &SpanContext::NONE);
    let unwanted = bridged_record(alloc, logger, &source(Level::Info), &place, none);
    lines.free_ok("bridged_record", unwanted);
    let wanted = bridged_record(alloc, logger, &source(Level::Error), &place, none);
    lines.answer_of(wanted.map(|made| made.is_some()));
    Ok(())
}

fn logged<R: Print>(alloc: Global, lines: &Lines<'_, R>) -> Result<(), AllocError> {
    let bridge = bridge(alloc)?;
    let context = Context::new();
    let sink = bridge.sink(&context);
    sink.log(&source(Level::Info));
    lines.free("BridgeSink::log", &bridge.dropped_records());
    sink.log(&source(Level::Error));
    let answer = if bridge.dropped_records() == 0 {
        Ok("logged")
    } else {
        Err(AllocError)
    };
    lines.answer_of(answer);
    Ok(())
}
