//! A writer that fails at each write in turn. After later flushes each span and each log record is
//! exported once. An error tells why the writer failed.
use crate::batches::{root, scope};
use crate::records::observed;
use otel_otlp::{OtlpJsonLogExporter, OtlpJsonSpanExporter};
use otel_sdk::error::OTelSdkError;
use otel_sdk::logs::{BatchConfigBuilder as LogConfigBuilder, BatchLogProcessor, LogProcessor};
use otel_sdk::trace::{BatchConfigBuilder, BatchSpanProcessor, SpanProcessor};
use otel_sdk_base::Exporter;
use serde_json::Value;
use std::alloc::Global;
use std::io;
use std::io::{ErrorKind, Write};
use std::test::Fail;

/// A writer that takes at most 100 bytes in a call. It fails `failures` calls, from call `first`
/// on.
#[derive(Drop)]
struct Failing {
    taken: Vec<u8>,
    calls: usize,
    first: usize,
    failures: usize,
}

impl Write for Failing {
    fn write(&mut self, bytes: &[u8]) -> io::Result<usize> {
        self.calls += 1;
        if self.first <= self.calls && self.calls < self.first + self.failures {
            return Err(ErrorKind::Other.into());
        }
        let count = bytes.len().min(100);
        match self.taken.extend_from_slice(&bytes[..count]) {
            Ok(()) => Ok(count),
            Err(_) => Err(ErrorKind::OutOfMemory.into()),
        }
    }

    fn flush(&mut self) -> io::Result<()> {
        Ok(())
    }
}

const SPANS: [&'static str; 2] = [
    "/resourceSpans/0/scopeSpans/0/spans/0/spanId",
    "/resourceSpans/0/scopeSpans/0/spans/1/spanId",
];

const RECORDS: [&'static str; 2] = [
    "/resourceLogs/0/scopeLogs/0/logRecords/0/observedTimeUnixNano",
    "/resourceLogs/0/scopeLogs/0/logRecords/1/observedTimeUnixNano",
];

// The last digits of the texts at these places in the whole lines, in order, and the number of
// lines that aren't whole.
fn digits_at(alloc: Global, places: &[&str], bytes: &[u8]) -> Result<(Vec<u8>, usize), Fail> {
    let (mut digits, mut cut) = (Vec::new(alloc), 0);
    for line in bytes.split(|byte| *byte == b'\n') {
        let text = String::from_utf8_lossy(alloc, line)?;
        let Ok(value) = Value::from_str(alloc, text.as_str()) else {
            cut += usize::from(!line.is_empty());
            continue;
        };
        for place in places {
            if let Some(found) = value.pointer(place).and_then(Value::as_str) {
                digits.push(*found.as_bytes().last().ok_or("no digit")?)?;
            }
        }
    }
    Ok((digits, cut))
}

fn failing(alloc: Global, first: usize, failures: usize) -> Failing {
    Failing {
        taken: Vec::new(alloc),
        calls: 0,
        first,
        failures,
    }
}

// The bytes that the writer took for the spans 1 to 5 in batches of two, flushed until that
// succeeds, and the numbers of calls and of failed flushes.
fn taken(alloc: Global, first: usize, failures: usize) -> Result<(Vec<u8>, usize, usize), Fail> {
    let config = BatchConfigBuilder::default()
        .with_max_queue_size(8)
        .with_max_export_batch_size(2)
        .build();
    let exporter = OtlpJsonSpanExporter::new(alloc, failing(alloc, first, failures))?;
    let mut processor = BatchSpanProcessor::new(alloc, exporter, config);
    for number in 1..6 {
        processor.on_end(root(alloc, number, scope(alloc, "s")?)?);
    }
    let mut failed = 0;
    while failed <= failures && processor.force_flush().is_err() {
        failed += 1;
    }
    if processor.queued_spans() > 0 || processor.dropped_spans() > 0 {
        return Err(Fail::from("not exported"));
    }
    let writer = processor.exporter().get_ref();
    Ok((writer.taken.clone()?, writer.calls, failed))
}

// The same for the log records of the moments 1 to 5.
fn taken_of_logs(
    alloc: Global,
    first: usize,
    failures: usize,
) -> Result<(Vec<u8>, usize, usize), Fail> {
    let config = LogConfigBuilder::default()
        .with_max_queue_size(8)
        .with_max_export_batch_size(2)
        .build();
    let exporter = OtlpJsonLogExporter::new(alloc, failing(alloc, first, failures))?;
    let mut processor = BatchLogProcessor::new(alloc, exporter, config)?;
    for moment in 1..6 {
        processor.on_emit(observed(alloc, moment, scope(alloc, "s")?));
    }
    let mut failed = 0;
    while failed <= failures && processor.force_flush().is_err() {
        failed += 1;
    }
    if processor.queued_records() > 0 || processor.dropped_records() > 0 {
        return Err(Fail::from("not exported"));
    }
    let writer = processor.exporter().get_ref();
    Ok((writer.taken.clone()?, writer.calls, failed))
}

#[test]
fn each_span_is_exported_once(rt: HostRuntime) -> Result<(), Fail> {
    let alloc = rt.alloc();
    let (bytes, calls, failed) = taken(alloc, 0, 0)?;
    assert_eq!(rt; failed, 0);
    assert!(rt; calls > 10, "{calls} calls");
    let (ids, cut) = digits_at(alloc, &SPANS, bytes.as_slice())?;
    assert_eq!(rt; ids.as_slice(), b"12345".as_slice());
    assert_eq!(rt; cut, 0);
    let mut all_cut = 0;
    for failures in 1..4 {
        for first in 1..=calls {
            let (bytes, _, failed) = taken(alloc, first, failures)?;
            assert!(rt; failed <= failures, "{first}, {failures}");
            let (ids, cut) = digits_at(alloc, &SPANS, bytes.as_slice())?;
            assert_eq!(rt; ids.as_slice(), b"12345".as_slice(), "{first}, {failures}");
            assert!(rt; cut <= 1, "{first}, {failures}");
            assert_eq!(rt; bytes.last(), Some(&b'\n'), "{first}, {failures}");
            all_cut += cut;
        }
    }
    assert!(rt; all_cut > 10, "{all_cut} lines cut off");
    Ok(())
}

#[test]
fn each_log_record_is_exported_once(rt: HostRuntime) -> Result<(), Fail> {
    let alloc = rt.alloc();
    let (bytes, calls, failed) = taken_of_logs(alloc, 0, 0)?;
    assert_eq!(rt; failed, 0);
    assert!(rt; calls > 5, "{calls} calls");
    let (moments, cut) = digits_at(alloc, &RECORDS, bytes.as_slice())?;
    assert_eq!(rt; moments.as_slice(), b"12345".as_slice());
    assert_eq!(rt; cut, 0);
    let mut all_cut = 0;
    for failures in 1..4 {
        for first in 1..=calls {
            let (bytes, _, failed) = taken_of_logs(alloc, first, failures)?;
            assert!(rt; failed <= failures, "{first}, {failures}");
            let (moments, cut) = digits_at(alloc, &RECORDS, bytes.as_slice())?;
            assert_eq!(rt;
                moments.as_slice(),
                b"12345".as_slice(),
                "{first}, {failures}"
            );
            assert!(rt; cut <= 1, "{first}, {failures}");
            assert_eq!(rt; bytes.last(), Some(&b'\n'), "{first}, {failures}");
            all_cut += cut;
        }
    }
    assert!(rt; all_cut > 4, "{all_cut} lines cut off");
    Ok(())
}

/// A writer whose writes fail with an error of the system, or take no byte.
#[derive(Drop)]
struct Refusing {
    code: Option<i32>,
}

impl Write for Refusing {
    fn write(&mut self, _bytes: &[u8]) -> io::Result<usize> {
        match self.code {
            Some(code) => Err(io::Error::from_raw_os_error(code)),
            None => Ok(0),
        }
    }

    fn flush(&mut self) -> io::Result<()> {
        Ok(())
    }
}

/// The numbers of errors of Linux, and how they print. Each is the writer's own, also the one of a
/// system without memory.
const REASONS: [(i32, &'static str); 3] = [
    (28, "No space left on device (os error 28)"),
    (13, "Permission denied (os error 13)"),
    (12, "Cannot allocate memory (os error 12)"),
];

#[test]
fn an_error_is_the_writers(rt: HostRuntime) -> Result<(), Fail> {
    let alloc = rt.alloc();
    let span = [root(alloc, 1, scope(alloc, "s")?)?];
    let record = [observed(alloc, 5, scope(alloc, "s")?)];
    for (code, text) in REASONS {
        let writer = || Refusing { code: Some(code) };
        let mut spans = OtlpJsonSpanExporter::new(alloc, writer())?;
        let mut logs = OtlpJsonLogExporter::new(alloc, writer())?.with_pending_newline();
        for answer in [
            spans.export(&span),
            logs.export(&record),
            logs.force_flush(),
        ] {
            let Err(OTelSdkError::Io(error)) = answer else {
                return Err(Fail::from(text));
            };
            assert_eq!(rt; error.raw_os_error(), Some(code));
            assert_eq!(rt;
                format!(in alloc; "{}", OTelSdkError::Io(error))?.as_str(),
                text
            );
        }
    }
    Ok(())
}

#[test]
fn a_writer_that_takes_no_byte_is_named(rt: HostRuntime) -> Result<(), Fail> {
    let alloc = rt.alloc();
    let span = [root(alloc, 1, scope(alloc, "s")?)?];
    let mut spans = OtlpJsonSpanExporter::new(alloc, Refusing { code: None })?;
    let error = spans.export(&span).err().ok_or("no error")?;
    let text = format!(in alloc; "{error}")?;
    assert_eq!(rt;
        text.as_str(),
        "Operation failed: the writer didn't take the line"
    );
    Ok(())
}
