//! The batches that processors hand to an exporter: worked runs.
use opentelemetry::logs::LogRecord;
use opentelemetry::{InstrumentationScope, StringValue};
use otel_sdk_base::error::{OTelSdkError, OTelSdkResult};
use otel_sdk_base::resource::Resource;
use otel_sdk_base::{Exporter, Losses};
use otel_sdk_logs::{
    BatchConfig, BatchConfigBuilder, BatchLogProcessor, LogData, LogProcessor, SdkLogRecord,
    SimpleLogProcessor,
};
use std::alloc::{AllocError, Global};
use std::cell::Cell;
use std::default::Default;
use std::process::Abort;
use std::rc::Rc;
use std::test::Fail;

/// A record with this number as its timestamp.
pub fn data(alloc: Global, number: u64) -> Result<LogData, AllocError> {
    let scope = InstrumentationScope::builder(StringValue::from("tests")).build(alloc)?;
    let mut record = SdkLogRecord::new(alloc);
    record.set_timestamp(number);
    Ok(LogData {
        record,
        instrumentation_scope: Rc::new(alloc, scope)?,
    })
}

/// An exporter with a plan. It accepts a batch at `+`, and otherwise refuses it. It writes down the
/// records' numbers of each batch in brackets, with a `!` if it refuses the batch.
#[derive(Drop)]
pub struct Planned {
    plan: &'static [u8],
    pub log: String,
}

impl Exporter<LogData> for Planned {
    ghost use Rattle.otel_sdk_base.specs.Export.{any_calls};

    ghost accepted = { λ _. [] };

    ghost calls = { any_calls };

    fn export(&mut self, batch: &[LogData]) -> OTelSdkResult {
        let mut gap = '[';
        for given in batch {
            self.log.push(gap)?;
            let number = given.record.timestamp.unwrap_or(0);
            self.log.push((b'0' + (number % 10) as u8) as char)?;
            gap = ' ';
        }
        self.log.push(']')?;
        let [first, rest @ ..] = self.plan else {
            return Err(OTelSdkError::AlreadyShutdown);
        };
        let accepts = *first == b'+';
        self.plan = rest;
        if accepts {
            return Ok(());
        }
        self.log.push('!')?;
        Err(OTelSdkError::InternalFailure(String::new(*self.log.allocator())))
    }

    fn force_flush(&mut self) -> OTelSdkResult {
        Ok(())
    }

    fn shutdown(&mut self) -> OTelSdkResult {
        Ok(())
    }

    fn set_resource(&mut self, resource: Rc<Resource>) {
        drop(resource);
    }

    fn losses(&self) -> Losses {
        Losses::default()
    }

    fn last_message(&self) -> Option<&str> {
        None
    }
}

pub fn planned(alloc: Global, plan: &'static str) -> Planned {
    Planned {
        plan: plan.as_bytes(),
        log: String::new(alloc),
    }
}

/// The limits of two records in the queue and in a batch.
pub fn two() -> BatchConfig {
    BatchConfigBuilder::default()
        .with_max_queue_size(2)
        .with_max_export_batch_size(4)
        .build()
}

#[test]
fn a_full_queue_keeps_the_first_records(rt: HostRuntime) -> Result<(), Fail> {
    let alloc = rt.alloc();
    let (exporter, config) = (planned(alloc, "-+"), two());
    let mut processor = BatchLogProcessor::new(alloc, exporter, config)?;
    for number in 1..4 {
        processor.on_emit(data(alloc, number)?);
    }
    assert_eq!(rt; processor.queued_records(), 2);
    assert_eq!(rt; processor.dropped_records(), 1);
    assert!(rt; processor.force_flush().is_err());
    assert_eq!(rt; processor.queued_records(), 2);
    assert!(rt; processor.force_flush().is_ok());
    assert_eq!(rt; processor.exporter().log.as_str(), "[1 2]![1 2]");
    assert_eq!(rt; processor.dropped_records(), 1);
    Ok(())
}

#[test]
fn a_closed_processor_drops_and_counts(rt: HostRuntime) -> Result<(), Fail> {
    let alloc = rt.alloc();
    let (exporter, config) = (planned(alloc, "-++"), two());
    let mut processor = BatchLogProcessor::new(alloc, exporter, config)?;
    processor.on_emit(data(alloc, 1)?);
    assert!(rt; processor.shutdown().is_err());
    assert!(rt; processor.is_open());
    processor.on_emit(data(alloc, 2)?);
    assert!(rt; processor.shutdown().is_ok());
    assert!(rt; !processor.is_open());
    processor.on_emit(data(alloc, 3)?);
    assert_eq!(rt; processor.dropped_records(), 1);
    assert!(rt; matches!(processor.force_flush(), Err(OTelSdkError::AlreadyShutdown)));
    assert!(rt; matches!(processor.shutdown(), Err(OTelSdkError::AlreadyShutdown)));
    assert_eq!(rt; processor.exporter().log.as_str(), "[1]![1 2]");
    Ok(())
}

#[test]
fn a_simple_processor_exports_at_once(rt: HostRuntime) -> Result<(), Fail> {
    let alloc = rt.alloc();
    let exporter = planned(alloc, "-++");
    let mut processor = SimpleLogProcessor::new(alloc, exporter)?;
    processor.on_emit(data(alloc, 1)?);
    assert_eq!(rt; processor.queued_records(), 1);
    processor.on_emit(data(alloc, 2)?);
    assert_eq!(rt; processor.queued_records(), 0);
    assert_eq!(rt; processor.dropped_records(), 0);
    assert_eq!(rt; processor.exporter().log.as_str(), "[1]![1][2]");
    Ok(())
}

/// An exporter whose flush and shutdown fail with the words `flush` and `shutdown` while they are to
/// fail. It counts both calls.
#[derive(Drop)]
pub struct Failing {
    alloc: Global,
    pub fails_to_flush: Cell<bool>,
    pub fails_to_shut_down: Cell<bool>,
    pub flushes: Cell<u64>,
    pub shutdowns: Cell<u64>,
}

impl Failing {
    fn answer(&self, fails: bool, words: &str) -> OTelSdkResult {
        if fails {
            return Err(OTelSdkError::InternalFailure(String::from_str(self.alloc, words)?));
        }
        Ok(())
    }
}

impl Exporter<LogData> for Failing {
    ghost use Rattle.otel_sdk_base.specs.Export.{any_calls};

    ghost accepted = { λ _. [] };

    ghost calls = { any_calls };

    fn export(&mut self, _batch: &[LogData]) -> OTelSdkResult {
        Ok(())
    }

    fn force_flush(&mut self) -> OTelSdkResult {
        self.flushes.set(self.flushes.get() + 1);
        self.answer(self.fails_to_flush.get(), "flush")
    }

    fn shutdown(&mut self) -> OTelSdkResult {
        self.shutdowns.set(self.shutdowns.get() + 1);
        self.answer(self.fails_to_shut_down.get(), "shutdown")
    }

    fn set_resource(&mut self, resource: Rc<Resource>) {
        drop(resource);
    }

    fn losses(&self) -> Losses {
        Losses::default()
    }

    fn last_message(&self) -> Option<&str> {
        None
    }
}

pub fn failing(alloc: Global) -> Failing {
    Failing {
        alloc,
        fails_to_flush: Cell::new(true),
        fails_to_shut_down: Cell::new(true),
        flushes: Cell::new(0),
        shutdowns: Cell::new(0),
    }
}

/// Returns whether the answer is the internal failure with these words.
pub fn is_failure(answer: OTelSdkResult, words: &str) -> bool {
    match answer {
        Err(OTelSdkError::InternalFailure(given)) => given.as_str() == words,
        _ => false,
    }
}

/// Runs the processor of a failing exporter, which `exporter` returns. The exporter's own error is
/// the answer of each call that runs it.
fn run_failing<P: LogProcessor, F: Fn(&P) -> &Failing>(
    rt: &impl Abort,
    mut processor: P,
    exporter: F,
) {
    assert!(rt; is_failure(processor.force_flush(), "flush"));
    assert_eq!(rt; exporter(&processor).flushes.get(), 1);
    assert!(rt; is_failure(processor.shutdown(), "flush"));
    assert!(rt; processor.is_open());
    assert_eq!(rt; exporter(&processor).flushes.get(), 2);
    assert_eq!(rt; exporter(&processor).shutdowns.get(), 0);
    exporter(&processor).fails_to_flush.set(false);
    assert!(rt; processor.force_flush().is_ok());
    assert_eq!(rt; exporter(&processor).flushes.get(), 3);
    assert!(rt; is_failure(processor.shutdown(), "shutdown"));
    assert!(rt; !processor.is_open());
    assert_eq!(rt; exporter(&processor).shutdowns.get(), 1);
    assert!(rt; matches!(processor.force_flush(), Err(OTelSdkError::AlreadyShutdown)));
    assert!(rt; matches!(processor.shutdown(), Err(OTelSdkError::AlreadyShutdown)));
    assert_eq!(rt; exporter(&processor).flushes.get(), 4);
    assert_eq!(rt; exporter(&processor).shutdowns.get(), 1);
}

#[test]
fn the_exporter_s_own_errors_are_the_answers(rt: HostRuntime) -> Result<(), Fail> {
    let alloc = rt.alloc();
    let processor = BatchLogProcessor::new(alloc, failing(alloc), two())?;
    run_failing(&rt, processor, |p| p.exporter());
    let processor = SimpleLogProcessor::new(alloc, failing(alloc))?;
    run_failing(&rt, processor, |p| p.exporter());
    Ok(())
}
