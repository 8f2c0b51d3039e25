//! Batches of ended spans and of log records as lines of OTLP, and the trees of JSON of such lines.
use crate::operation::{Operation, Task, add, repeat};
use crate::sdk::ended;
use opentelemetry::logs::{AnyValue, LogRecord, Severity};
use opentelemetry::trace::{SpanId, TraceFlags, TraceId};
use opentelemetry::{InstrumentationScope, Key, StringValue};
use otel_otlp::{OtlpJsonLogExporter, OtlpJsonSpanExporter};
use otel_sdk::logs::{LogData, SdkLogRecord};
use otel_sdk::trace::{Exporter, SpanData};
use serde_json::Value;
use std::alloc::{AllocError, Global};
use std::io::{self, Write};
use std::rc::Rc;

/// Keeps the text of the first line, and adds up the lengths of all.
#[derive(Drop)]
struct FirstLine {
    alloc: Global,
    text: Vec<u8>,
    bytes: usize,
}

impl Write for FirstLine {
    fn write(&mut self, bytes: &[u8]) -> io::Result<usize> {
        if self.bytes == 0 {
            self.text = Vec::from_slice(self.alloc, bytes)?;
        }
        self.bytes = self.bytes.wrapping_add(bytes.len());
        Ok(bytes.len())
    }

    fn flush(&mut self) -> io::Result<()> {
        Ok(())
    }
}

type Exporting = OtlpJsonSpanExporter<FirstLine>;

type ExportingLogs = OtlpJsonLogExporter<FirstLine>;

pub fn play(task: &Task<'_>, alloc: Global, rt: HostRuntime) -> Result<Option<u64>, AllocError> {
    let first = FirstLine {
        alloc,
        text: Vec::new(alloc),
        bytes: 0,
    };
    if task.name == "line_logs" {
        let batch = emitted(alloc, task.size)?;
        let exporter = OtlpJsonLogExporter::new(alloc, first)?;
        return repeat(LogLines { exporter, batch }, task.times);
    }
    let batch = ended(alloc, rt, task.size)?;
    let mut exporter = OtlpJsonSpanExporter::new(alloc, first)?;
    match task.name {
        "line_export" => repeat(Lines { exporter, batch }, task.times),
        "line_write" => {
            export(&mut exporter, batch.as_slice())?;
            let tree = tree(alloc, &exporter.get_ref().text)?;
            repeat(Trees { alloc, tree }, task.times)
        }
        _ => Ok(None),
    }
}

/// Log records of one logger, each with a severity, a body, two attributes and the ids of a span.
fn emitted(alloc: Global, size: usize) -> Result<Vec<LogData>, AllocError> {
    let scope = InstrumentationScope::builder(StringValue::from("bench")).build(alloc)?;
    let scope = Rc::new(alloc, scope)?;
    let mut batch = Vec::new(alloc);
    for number in 0..size {
        let instrumentation_scope = scope.clone()?;
        batch.push(LogData {
            record: record(alloc, number as u64)?,
            instrumentation_scope,
        })?;
    }
    Ok(batch)
}

#[inline(never)]
fn record(alloc: Global, number: u64) -> Result<SdkLogRecord, AllocError> {
    let mut record = SdkLogRecord::new(alloc);
    record.set_timestamp(1);
    record.set_observed_timestamp(1);
    record.set_severity_number(Severity::Error);
    record.set_severity_text("ERROR");
    record.set_body(AnyValue::from("no price for the item"));
    let given = vec![in alloc;
        (Key::from("item"), AnyValue::Int(7)),
        (Key::from("shop"), AnyValue::from("corner")),
    ]?;
    record.add_attributes(alloc, given)?;
    let flags = Some(TraceFlags::SAMPLED);
    record.set_trace_context(TraceId::from(1), SpanId::from(number), flags);
    Ok(record)
}

#[inline(never)]
fn export(exporter: &mut Exporting, batch: &[SpanData]) -> Result<(), AllocError> {
    exporter.export(batch).map_err(|_| AllocError)
}

#[inline(never)]
fn export_logs(exporter: &mut ExportingLogs, batch: &[LogData]) -> Result<(), AllocError> {
    exporter.export(batch).map_err(|_| AllocError)
}

fn tree(alloc: Global, text: &[u8]) -> Result<Value, AllocError> {
    Value::from_slice(alloc, text.trim_ascii_end()).map_err(|_| AllocError)
}

#[inline(never)]
fn write(alloc: Global, tree: &Value) -> Result<String, AllocError> {
    tree.to_string(alloc)
}

/// A batch becomes a line.
#[derive(Drop)]
struct Lines {
    exporter: Exporting,
    batch: Vec<SpanData>,
}

impl Operation for Lines {
    fn once(&mut self, sum: &mut u64) -> Result<(), AllocError> {
        let before = self.exporter.get_ref().bytes;
        export(&mut self.exporter, self.batch.as_slice())?;
        add(sum, self.exporter.get_ref().bytes.wrapping_sub(before));
        Ok(())
    }
}

/// A batch of log records becomes a line.
#[derive(Drop)]
struct LogLines {
    exporter: ExportingLogs,
    batch: Vec<LogData>,
}

impl Operation for LogLines {
    fn once(&mut self, sum: &mut u64) -> Result<(), AllocError> {
        let before = self.exporter.get_ref().bytes;
        export_logs(&mut self.exporter, self.batch.as_slice())?;
        add(sum, self.exporter.get_ref().bytes.wrapping_sub(before));
        Ok(())
    }
}

/// The tree of a line of spans becomes a text.
#[derive(Drop)]
struct Trees {
    alloc: Global,
    tree: Value,
}

impl Operation for Trees {
    fn once(&mut self, sum: &mut u64) -> Result<(), AllocError> {
        let text = write(self.alloc, &self.tree)?;
        add(sum, text.len());
        Ok(())
    }
}
