//! The calls that loggers and providers make on their processor and on their clock, each counted.
use crate::processor::data;
use opentelemetry::logs::{LogRecord, Logger, LoggerProvider, Severity};
use opentelemetry::{Context, StringValue};
use otel_sdk_base::CountedClock;
use otel_sdk_base::error::{OTelSdkError, OTelSdkResult};
use otel_sdk_base::resource::Resource;
use otel_sdk_logs::{
    EmittedLogs, InMemoryLogExporter, LogData, LogProcessor, RecordIntake, SdkLoggerProvider,
    SimpleLogProcessor,
};
use std::alloc::{AllocError, Global};
use std::cell::{Cell, RefCell};
use std::process::Abort;
use std::rc::Rc;
use std::test::Fail;

/// A processor that writes down each call: a record's number, `e` for a question, `f` for a flush,
/// `s` for a shutdown and `r` for a resource. Each flush and each shutdown fails, and names itself.
#[derive(Drop)]
struct Noted {
    calls: Rc<RefCell<String>>,
}

/// Writes down a call.
fn note(calls: &Rc<RefCell<String>>, call: char) {
    if let Ok(mut calls) = calls.try_borrow_mut() {
        let _ = calls.push(call);
    }
}

/// Returns the failure with this name.
fn failure(calls: &Rc<RefCell<String>>, name: &str) -> OTelSdkResult {
    let Ok(calls) = calls.try_borrow() else {
        return Err(OTelSdkError::AlreadyShutdown);
    };
    Err(OTelSdkError::InternalFailure(String::from_str(*calls.allocator(), name)?))
}

impl LogProcessor for Noted {
    ghost use Rattle.std.specs.Prelude.{[], true};

    ghost received = { λ _. record { items = []; dropped = 0 } };

    ghost receives = { λ _. true };

    fn on_emit(&mut self, given: LogData) {
        let number = given.record.timestamp.unwrap_or(0);
        note(&self.calls, (b'0' + (number % 10) as u8) as char);
    }

    fn force_flush(&mut self) -> OTelSdkResult {
        note(&self.calls, 'f');
        failure(&self.calls, "flush")
    }

    fn shutdown(&mut self) -> OTelSdkResult {
        note(&self.calls, 's');
        failure(&self.calls, "shutdown")
    }

    fn is_open(&self) -> bool {
        true
    }

    fn event_enabled(&self, _severity: Severity, _target: &str, _name: Option<&str>) -> bool {
        note(&self.calls, 'e');
        true
    }

    fn dropped_records(&self) -> u64 {
        0
    }

    fn set_resource(&mut self, resource: Rc<Resource>) {
        drop(resource);
        note(&self.calls, 'r');
    }
}

/// Returns whether the answer is the failure with this name.
fn is_failure(answer: OTelSdkResult, name: &str) -> bool {
    match answer {
        Err(OTelSdkError::InternalFailure(text)) => text.as_str() == name,
        _ => false,
    }
}

#[test]
fn each_call_reaches_the_processor_once(rt: HostRuntime) -> Result<(), Fail> {
    let alloc = rt.alloc();
    let calls = Rc::new(alloc, RefCell::new(String::new(alloc)))?;
    let provider = SdkLoggerProvider::builder(rt)
        .with_log_processor(Noted {
            calls: calls.clone()?,
        })
        .build(alloc)?;
    let logger = provider.logger(alloc, StringValue::from("tests"))?;
    logger.emit(data(alloc, 1)?.record);
    logger.emit_in(&Context::new(), data(alloc, 2)?.record);
    assert!(rt; is_failure(provider.force_flush(), "flush"));
    logger.emit(data(alloc, 3)?.record);
    assert!(rt; logger.event_enabled(Severity::Info, "t", None));
    assert!(rt; logger.event_enabled_in(&Context::new(), Severity::Info, "t", None));
    assert!(rt; is_failure(provider.shutdown(), "shutdown"));
    let calls = calls.try_borrow().ok().expect(&rt, "no call goes on");
    assert_eq!(rt; calls.as_str(), "r12f3ees");
    assert_eq!(rt; provider.dropped_records(), 0);
    Ok(())
}

#[test]
fn a_record_without_a_time_reads_the_clock_once(rt: HostRuntime) -> Result<(), Fail> {
    let alloc = rt.alloc();
    let provider = SdkLoggerProvider::builder(rt)
        .with_log_processor(SimpleLogProcessor::new(alloc, InMemoryLogExporter::new(alloc))?)
        .with_clock(CountedClock::new(1))
        .build(alloc)?;
    let logger = provider.logger(alloc, StringValue::from("tests"))?;
    let suppressed = Context::new().with_telemetry_suppressed(alloc)?;
    logger.emit(data(alloc, 1)?.record);
    assert!(rt; logger.event_enabled(Severity::Info, "t", None));
    logger.emit_in(&suppressed, data(alloc, 2)?.record);
    let mut observed = data(alloc, 3)?.record;
    observed.set_observed_timestamp(70);
    logger.emit(observed);
    logger.emit_in(&Context::new(), data(alloc, 4)?.record);
    logger.emit(data(alloc, 5)?.record);
    let processor = provider.processor().ok().expect(&rt, "no call goes on");
    let records = processor.exporter().get_emitted_logs()?;
    let mut times = Vec::new(alloc);
    for given in records.iter() {
        times.push(given.record.observed_timestamp)?;
    }
    let wanted = [Some(0), Some(70), Some(1), Some(2)];
    assert_eq!(rt; times.as_slice(), wanted.as_slice());
    Ok(())
}

#[test]
fn a_lost_record_is_counted_once(rt: HostRuntime) -> Result<(), Fail> {
    let lost = Cell::new(0);
    Noted::count_unmade(&lost, AllocError);
    assert_eq!(rt; lost.get(), 1);
    let busy = RefCell::new(0);
    let borrowed = busy.try_borrow_mut();
    for (count, wanted) in [(1, 2), (u64::MAX - 1, u64::MAX), (u64::MAX, u64::MAX)] {
        lost.set(count);
        Noted::count_unmade(&lost, AllocError);
        assert_eq!(rt; lost.get(), wanted);
        lost.set(count);
        let error = busy.try_borrow_mut().err().expect(&rt, "it is borrowed");
        Noted::count_missed(&lost, error);
        assert_eq!(rt; lost.get(), wanted);
    }
    drop(borrowed);
    Ok(())
}
