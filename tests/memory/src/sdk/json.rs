//! Spans as lines of JSON.
use crate::lines::Lines;
use crate::sdk::export::span;
use opentelemetry::trace::{
    Event, Link, SpanContext, SpanId, Status, TraceFlags, TraceId, TraceState,
};
use opentelemetry::{Array, Key, KeyValue, StringValue, Value};
use otel_otlp::{OtlpJsonSpanExporter, read_resource_spans, read_traces, traces_text};
use otel_sdk::error::{OTelSdkError, OTelSdkResult};
use otel_sdk::resource::Resource;
use otel_sdk::trace::{Exporter, SpanData};
use std::alloc::{AllocError, Global};
use std::io::{self, ErrorKind, Write};

pub fn play<R: Print>(alloc: Global, lines: &Lines<'_, R>) {
    if lines.begin("json-exporter-new") {
        lines.answer_named("made", OtlpJsonSpanExporter::new(alloc, io::sink()));
    }
    if lines.begin("json-exporter-export") {
        lines.end(export(alloc, lines));
    }
    if lines.begin("json-exporter-refusals") {
        lines.end(refusals(alloc, lines));
    }
    if lines.begin("json-traces-text") {
        lines.end(text(alloc, lines));
    }
    if lines.begin("json-read-resource-spans") {
        lines.end(read_groups(alloc, lines));
    }
    if lines.begin("json-read-traces") {
        lines.end(read(alloc, lines));
    }
}

/// A writer that fails.
#[derive(Drop)]
pub struct Closed {
    error: ErrorKind,
}

/// A writer whose reader is gone.
pub fn closed() -> Closed {
    Closed {
        error: ErrorKind::BrokenPipe,
    }
}

impl Write for Closed {
    fn write(&mut self, _bytes: &[u8]) -> io::Result<usize> {
        Err(self.error.into())
    }

    fn flush(&mut self) -> io::Result<()> {
        Err(self.error.into())
    }
}

fn attribute(value: Value) -> KeyValue {
    KeyValue::new(Key::from("k"), value)
}

/// A resource with an attribute.
pub fn resource(alloc: Global) -> Result<Resource, AllocError> {
    Ok(
        Resource::builder_empty(alloc)
            .with_attribute(attribute(Value::from("v")))?
            .build(),
    )
}

/// A link to a span with a trace state.
fn link(alloc: Global) -> Result<Link, AllocError> {
    let Ok(state) = TraceState::from_str(alloc, "a=1") else {
        return Err(AllocError);
    };
    let (trace_id, span_id) = (TraceId::from(1), SpanId::from(3));
    let other = SpanContext::new(trace_id, span_id, TraceFlags::SAMPLED, false, state);
    Ok(Link::new(other, Vec::new(alloc), 0))
}

/// A failed span, with an attribute, an event and a link.
pub fn full(alloc: Global) -> Result<SpanData, AllocError> {
    let mut span = span(alloc)?;
    let numbers = Array::from(vec![in alloc; 1]?);
    span.attributes.push(attribute(Value::Array(numbers)))?;
    let given = vec![in alloc; attribute(Value::from("v"))]?;
    let event = Event::new(StringValue::from("e"), 3, given, 0);
    span.events.events.push(event)?;
    span.links.links.push(link(alloc)?)?;
    span.status = Status::error(StringValue::from("x"));
    Ok(span)
}

fn export<R: Print>(alloc: Global, lines: &Lines<'_, R>) -> Result<(), AllocError> {
    let batch = [full(alloc)?];
    let mut exporter = OtlpJsonSpanExporter::new(alloc, io::sink())?;
    lines.answer_named("written", exporter.export(&batch));
    lines.free_ok("OtlpJsonExporter::force_flush", exporter.force_flush());
    lines.free_ok("OtlpJsonExporter::shutdown", exporter.shutdown());
    Ok(())
}

/// Which of the answers of an exporter this is. The text of a failure is empty without memory.
pub fn told(answer: OTelSdkResult) -> &'static str {
    match answer {
        Ok(()) => "ok",
        Err(OTelSdkError::InternalFailure(_) | OTelSdkError::Io(_)) => "refused",
        Err(OTelSdkError::Memory(_)) => "no memory",
        Err(_) => "another error",
    }
}

/// Calls whose writer fails.
fn refusals<R: Print>(alloc: Global, lines: &Lines<'_, R>) -> Result<(), AllocError> {
    let batch = [span(alloc)?];
    let mut exporter = OtlpJsonSpanExporter::new(alloc, closed())?;
    lines.answer(&told(exporter.export(&batch)));
    lines.free(
        "OtlpJsonExporter::force_flush",
        &told(exporter.force_flush()),
    );
    lines.free("OtlpJsonExporter::shutdown", &told(exporter.shutdown()));
    Ok(())
}

fn text<R: Print>(alloc: Global, lines: &Lines<'_, R>) -> Result<(), AllocError> {
    let resource = resource(alloc)?;
    let batch = [full(alloc)?];
    lines.answer_of(traces_text(alloc, &resource, &batch));
    Ok(())
}

fn read_groups<R: Print>(alloc: Global, lines: &Lines<'_, R>) -> Result<(), AllocError> {
    let resource = resource(alloc)?;
    let batch = [full(alloc)?];
    let line = traces_text(alloc, &resource, &batch)?;
    let read = read_resource_spans(alloc, line.as_str());
    lines.answer_of(read.map(|groups| groups.len()));
    Ok(())
}

fn read<R: Print>(alloc: Global, lines: &Lines<'_, R>) -> Result<(), AllocError> {
    let resource = resource(alloc)?;
    let batch = [full(alloc)?];
    let line = traces_text(alloc, &resource, &batch)?;
    let read = read_traces(alloc, line.as_str());
    lines.answer_of(read.map(|spans| spans.len()));
    Ok(())
}
