//! Log records with odd values, drawn with the numbers of `Draws`.
use crate::{BATCHES, Draws, MANY};
use opentelemetry::logs::{AnyValue, LogRecord, Severity};
use opentelemetry::trace::{SpanId, TraceFlags, TraceId};
use opentelemetry::{InstrumentationScope, Key, StringValue};
use otel_otlp::OtlpJsonLogExporter;
use otel_sdk_base::Exporter;
use otel_sdk_base::resource::Resource;
use otel_sdk_logs::{LogData, SdkLogRecord};
use std::alloc::{AllocError, Global};
use std::io::{self, ErrorKind, Write};
use std::rc::Rc;

const SEVERITIES: [Severity; 24] = [
    Severity::Trace,
    Severity::Trace2,
    Severity::Trace3,
    Severity::Trace4,
    Severity::Debug,
    Severity::Debug2,
    Severity::Debug3,
    Severity::Debug4,
    Severity::Info,
    Severity::Info2,
    Severity::Info3,
    Severity::Info4,
    Severity::Warn,
    Severity::Warn2,
    Severity::Warn3,
    Severity::Warn4,
    Severity::Error,
    Severity::Error2,
    Severity::Error3,
    Severity::Error4,
    Severity::Fatal,
    Severity::Fatal2,
    Severity::Fatal3,
    Severity::Fatal4,
];

impl Draws {
    fn log_key(&mut self) -> Key {
        if self.below(8) == 0 {
            return Key::from("log.target");
        }
        Key::from(self.text())
    }

    // A tree that nests at most this deep.
    fn tree(&mut self, alloc: Global, depth: u64) -> Result<AnyValue, AllocError> {
        let cases = if depth == 0 { 4 } else { 6 };
        match self.below(cases) {
            0 => Ok(AnyValue::Int(self.integer())),
            1 => Ok(AnyValue::from(self.text())),
            2 => Ok(AnyValue::Boolean(self.truth())),
            3 => self.bytes(alloc),
            4 => self.list(alloc, depth - 1),
            _ => AnyValue::map(alloc, self.pairs(alloc, depth - 1)?),
        }
    }

    fn bytes(&mut self, alloc: Global) -> Result<AnyValue, AllocError> {
        let count = self.below(5);
        let mut items = Vec::new(alloc);
        for _ in 0..count {
            items.push(self.below(256) as u8)?;
        }
        AnyValue::bytes(alloc, items.as_slice())
    }

    fn list(&mut self, alloc: Global, depth: u64) -> Result<AnyValue, AllocError> {
        let count = self.below(3);
        let mut items = Vec::new(alloc);
        for _ in 0..count {
            items.push(self.tree(alloc, depth)?)?;
        }
        AnyValue::list(alloc, items)
    }

    fn pairs(&mut self, alloc: Global, depth: u64) -> Result<Vec<(Key, AnyValue)>, AllocError> {
        let count = self.below(4);
        let mut items = Vec::new(alloc);
        for _ in 0..count {
            let key = self.log_key();
            items.push((key, self.tree(alloc, depth)?))?;
        }
        Ok(items)
    }

    fn trace_context(&mut self, log: &mut SdkLogRecord) {
        let high = u128::from(self.number());
        let trace_id = TraceId::from((high << 64) + u128::from(self.number()));
        let span_id = SpanId::from(self.number());
        let flags = if self.truth() {
            Some(TraceFlags::new(self.below(256) as u8))
        } else {
            None
        };
        log.set_trace_context(trace_id, span_id, flags);
    }

    fn log(&mut self, alloc: Global) -> Result<SdkLogRecord, AllocError> {
        let mut log = SdkLogRecord::new(alloc);
        if self.truth() {
            log.set_event_name(self.text());
        }
        if self.truth() {
            log.set_target(StringValue::from(self.text()));
        }
        if self.truth() {
            log.set_timestamp(self.number());
        }
        if self.truth() {
            log.set_observed_timestamp(self.number());
        }
        if self.truth() {
            log.set_severity_text(self.text());
        }
        if self.truth() {
            log.set_severity_number(SEVERITIES[self.below(24) as usize]);
        }
        if self.truth() {
            log.set_body(self.tree(alloc, 3)?);
        }
        let given = self.pairs(alloc, 2)?;
        log.add_attributes(alloc, given)?;
        log.dropped_attributes_count = self.lost();
        if self.truth() {
            self.trace_context(&mut log);
        }
        Ok(log)
    }

    fn scoped_log(&mut self, alloc: Global) -> Result<LogData, AllocError> {
        let name = StringValue::from(self.text());
        let version = StringValue::from(self.text());
        let scope = InstrumentationScope::builder(name)
            .with_version(version)
            .build(alloc)?;
        Ok(LogData {
            record: self.log(alloc)?,
            instrumentation_scope: Rc::new(alloc, scope)?,
        })
    }
}

// Exports a batch of `count` log records under a resource of its own.
fn export<W: Write + Drop>(
    alloc: Global,
    draws: &mut Draws,
    exporter: &mut OtlpJsonLogExporter<W>,
    count: u64,
) -> io::Result<()> {
    exporter.set_resource(Rc::new(alloc, draws.resource(alloc)?)?);
    let mut batch = Vec::new(alloc);
    for _ in 0..count {
        batch.push(draws.scoped_log(alloc)?)?;
    }
    match exporter.export(batch.as_slice()) {
        Ok(()) => Ok(()),
        Err(_) => Err(io::Error::from(ErrorKind::WriteZero)),
    }
}

// Maps within each other, more than are written.
fn deep(alloc: Global) -> Result<AnyValue, AllocError> {
    let mut tree = AnyValue::from("inside");
    for _ in 0..60 {
        tree = AnyValue::map(alloc, vec![in alloc; (Key::from("k"), tree)]?)?;
    }
    Ok(tree)
}

// A log record whose body and attribute nest deep.
fn deep_log(alloc: Global) -> Result<LogData, AllocError> {
    let mut record = SdkLogRecord::new(alloc);
    record.set_body(deep(alloc)?);
    record.add_attribute(alloc, Key::from("a"), deep(alloc)?)?;
    let scope = InstrumentationScope::builder(StringValue::from("deep")).build(alloc)?;
    Ok(LogData {
        record,
        instrumentation_scope: Rc::new(alloc, scope)?,
    })
}

/// Writes the lines of the batches of log records, and a line that nests deep.
pub(crate) fn write<W: Write + Drop>(
    alloc: Global,
    draws: &mut Draws,
    writer: W,
) -> io::Result<()> {
    let mut exporter = OtlpJsonLogExporter::new(alloc, writer)?;
    for _ in 0..BATCHES {
        let count = draws.below(3) + 1;
        export(alloc, draws, &mut exporter, count)?;
    }
    export(alloc, draws, &mut exporter, MANY)?;
    exporter.set_resource(Rc::new(alloc, Resource::builder_empty(alloc).build())?);
    match exporter.export(&[deep_log(alloc)?]) {
        Ok(()) => Ok(()),
        Err(_) => Err(io::Error::from(ErrorKind::WriteZero)),
    }
}
