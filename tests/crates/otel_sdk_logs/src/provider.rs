//! Providers and their loggers: records that reach the processor, and records that are dropped.
use crate::processor::{failing, is_failure, planned, two};
use opentelemetry::logs::{LogRecord, Logger, LoggerProvider, Severity};
use opentelemetry::trace::{SpanContext, SpanId, TraceFlags, TraceId, TraceState};
use opentelemetry::{Context, Key, KeyValue, StringValue, Value};
use otel_sdk_base::error::{OTelSdkError, OTelSdkResult};
use otel_sdk_base::resource::Resource;
use otel_sdk_base::{Clock, Exporter, Losses, ManualClock};
use otel_sdk_logs::{
    BatchConfig, BatchLogProcessor, EmittedLogs, InMemoryLogExporter, LogData, LogProcessor,
    SdkLoggerProvider, SimpleLogProcessor,
};
use std::alloc::{AllocError, Global};
use std::default::Default;
use std::process::Abort;
use std::rc::Rc;
use std::test::Fail;

type InMemory<C> = SdkLoggerProvider<SimpleLogProcessor<InMemoryLogExporter>, C>;

/// Returns a provider whose exporter keeps the records in memory.
fn in_memory(rt: HostRuntime) -> Result<InMemory<ManualClock>, AllocError> {
    let alloc = rt.alloc();
    let processor = SimpleLogProcessor::new(alloc, InMemoryLogExporter::new(alloc))?;
    SdkLoggerProvider::builder(rt)
        .with_log_processor(processor)
        .with_clock(ManualClock::new(5))
        .build(alloc)
}

/// Emits a record with this number as its timestamp.
fn emit<L: Logger>(alloc: Global, logger: &L, number: u64) -> Result<(), AllocError> {
    let mut record = logger.create_log_record(alloc)?;
    record.set_timestamp(number);
    logger.emit(record);
    Ok(())
}

#[test]
fn three_records_meet_a_queue_of_two(rt: HostRuntime) -> Result<(), Fail> {
    let alloc = rt.alloc();
    let processor = BatchLogProcessor::new(alloc, planned(alloc, "-+"), two())?;
    let provider = SdkLoggerProvider::builder(rt)
        .with_log_processor(processor)
        .build(alloc)?;
    let logger = provider.logger(alloc, StringValue::from("tests"))?;
    for number in 1..4 {
        emit(alloc, &logger, number)?;
    }
    assert!(rt; provider.force_flush().is_err());
    assert!(rt; provider.force_flush().is_ok());
    assert_eq!(rt; provider.dropped_records(), 1);
    let Ok(processor) = provider.processor() else {
        assert!(rt; false, "the processor is at work");
        return Ok(());
    };
    assert_eq!(rt; processor.exporter().log.as_str(), "[1 2]![1 2]");
    assert_eq!(rt; processor.queued_records(), 0);
    assert_eq!(rt; processor.dropped_records(), 1);
    Ok(())
}

#[test]
fn a_record_is_observed_when_it_is_emitted(rt: HostRuntime) -> Result<(), Fail> {
    let alloc = rt.alloc();
    let exporter = InMemoryLogExporter::new(alloc);
    let processor = SimpleLogProcessor::new(alloc, exporter)?;
    let provider = SdkLoggerProvider::builder(rt)
        .with_log_processor(processor)
        .with_clock(ManualClock::new(5))
        .build(alloc)?;
    let logger = provider.logger(alloc, StringValue::from("tests"))?;
    emit(alloc, &logger, 1)?;
    let mut record = logger.create_log_record(alloc)?;
    assert_eq!(rt; record.observed_timestamp, None);
    record.set_observed_timestamp(3);
    logger.emit(record);
    let Ok(processor) = provider.processor() else {
        assert!(rt; false, "the processor is at work");
        return Ok(());
    };
    let records = processor.exporter().get_emitted_logs()?;
    let [first, second] = records.as_slice() else {
        assert!(rt; false, "other records");
        return Ok(());
    };
    assert_eq!(rt; first.record.timestamp, Some(1));
    assert_eq!(rt; first.record.observed_timestamp, Some(5));
    assert_eq!(rt; second.record.timestamp, None);
    assert_eq!(rt; second.record.observed_timestamp, Some(3));
    assert_eq!(rt; first.instrumentation_scope.name(), "tests");
    Ok(())
}

#[test]
fn a_provider_is_open_while_its_processor_is(rt: HostRuntime) -> Result<(), Fail> {
    let alloc = rt.alloc();
    let processor = BatchLogProcessor::new(alloc, planned(alloc, "-+"), BatchConfig::default())?;
    let provider = SdkLoggerProvider::builder(rt)
        .with_log_processor(processor)
        .build(alloc)?;
    let logger = provider.logger(alloc, StringValue::from("tests"))?;
    assert!(rt; logger.event_enabled(Severity::Trace, "t", None));
    emit(alloc, &logger, 1)?;
    assert!(rt; provider.shutdown().is_err());
    assert!(rt; logger.event_enabled(Severity::Trace, "t", Some("event")));
    assert!(rt; provider.shutdown().is_ok());
    assert!(rt; !logger.event_enabled(Severity::Fatal4, "t", None));
    assert!(rt; matches!(provider.force_flush(), Err(OTelSdkError::AlreadyShutdown)));
    assert!(rt; matches!(provider.shutdown(), Err(OTelSdkError::AlreadyShutdown)));
    emit(alloc, &logger, 2)?;
    assert_eq!(rt; provider.dropped_records(), 1);
    Ok(())
}

/// An exporter that keeps the name of the service.
#[derive(Drop)]
struct Named {
    service: Option<Rc<Resource>>,
}

impl Exporter<LogData> for Named {
    ghost use Rattle.otel_sdk_base.specs.Export.{any_calls};

    ghost accepted = { λ _. [] };

    ghost calls = { any_calls };

    fn export(&mut self, _batch: &[LogData]) -> OTelSdkResult {
        Ok(())
    }

    fn force_flush(&mut self) -> OTelSdkResult {
        Ok(())
    }

    fn shutdown(&mut self) -> OTelSdkResult {
        Ok(())
    }

    fn set_resource(&mut self, resource: Rc<Resource>) {
        self.service = Some(resource);
    }

    fn losses(&self) -> Losses {
        Losses::default()
    }

    fn last_message(&self) -> Option<&str> {
        None
    }
}

/// Returns the attribute with this text as its value.
fn pair(key: &'static str, value: &'static str) -> KeyValue {
    KeyValue::new(Key::from(key), Value::from(value))
}

#[test]
fn resources_are_merged_and_told_to_the_exporter(rt: HostRuntime) -> Result<(), Fail> {
    let alloc = rt.alloc();
    let first = Resource::builder_empty(alloc)
        .with_attribute(pair("a", "1"))?
        .with_attribute(pair("b", "2"))?
        .build();
    let second = Resource::builder_empty(alloc)
        .with_attribute(pair("b", "3"))?
        .build();
    let processor = SimpleLogProcessor::new(alloc, Named { service: None })?;
    let provider = SdkLoggerProvider::builder(rt)
        .with_resource(first)?
        .with_log_processor(processor)
        .with_resource(second)?
        .build(alloc)?;
    assert!(rt; provider.resource().get("a") == Some(&Value::from("1")));
    assert!(rt; provider.resource().get("b") == Some(&Value::from("3")));
    let Ok(processor) = provider.processor() else {
        assert!(rt; false, "the processor is at work");
        return Ok(());
    };
    let Some(told) = &processor.exporter().service else {
        assert!(rt; false, "no resource");
        return Ok(());
    };
    assert!(rt; told.get("b") == Some(&Value::from("3")));
    Ok(())
}

#[test]
fn the_default_resource_names_the_sdk(rt: HostRuntime) -> Result<(), Fail> {
    let alloc = rt.alloc();
    let processor = SimpleLogProcessor::new(alloc, InMemoryLogExporter::new(alloc))?;
    let provider = SdkLoggerProvider::builder(rt)
        .with_log_processor(processor)
        .build(alloc)?;
    let name = provider.resource().get("telemetry.sdk.name");
    assert!(rt; name == Some(&Value::from("otel_sdk")));
    Ok(())
}

/// Returns the numbers of the records that the exporter of the provider got, in order.
fn numbers<C: Clock>(rt: &impl Abort, alloc: Global, provider: &InMemory<C>) -> Vec<u64> {
    let processor = provider
        .processor()
        .ok()
        .expect(rt, "a processor that isn't at work");
    let records = processor
        .exporter()
        .get_emitted_logs()
        .ok()
        .expect(rt, "memory");
    let mut numbers = Vec::new(alloc);
    for given in records.iter() {
        numbers
            .push(given.record.timestamp.unwrap_or(0))
            .ok()
            .expect(rt, "memory");
    }
    numbers
}

#[test]
fn each_record_is_handed_in_once_in_order(rt: HostRuntime) -> Result<(), Fail> {
    let alloc = rt.alloc();
    let provider = in_memory(rt)?;
    let logger = provider.logger(alloc, StringValue::from("tests"))?;
    for number in [1, 2, 1] {
        emit(alloc, &logger, number)?;
    }
    assert_eq!(rt;
        numbers(&rt, alloc, &provider).as_slice(),
        [1, 2, 1].as_slice()
    );
    assert_eq!(rt; provider.dropped_records(), 0);
    Ok(())
}

#[test]
fn records_that_meet_a_busy_processor_are_counted(rt: HostRuntime) -> Result<(), Fail> {
    let alloc = rt.alloc();
    let provider = in_memory(rt)?;
    let logger = provider.logger(alloc, StringValue::from("tests"))?;
    let busy = provider.processor();
    assert!(rt; busy.is_ok());
    assert!(rt; logger.event_enabled(Severity::Info, "t", None));
    emit(alloc, &logger, 1)?;
    emit(alloc, &logger, 2)?;
    for answer in [provider.force_flush(), provider.shutdown()] {
        assert!(rt; is_failure(answer, "the processor is at work"));
    }
    drop(busy);
    assert_eq!(rt; provider.dropped_records(), 2);
    emit(alloc, &logger, 3)?;
    assert_eq!(rt; numbers(&rt, alloc, &provider).as_slice(), [3].as_slice());
    assert_eq!(rt; provider.dropped_records(), 2);
    Ok(())
}

#[test]
fn a_provider_answers_the_exporter_s_own_errors(rt: HostRuntime) -> Result<(), Fail> {
    let alloc = rt.alloc();
    let processor = BatchLogProcessor::new(alloc, failing(alloc), BatchConfig::default())?;
    let provider = SdkLoggerProvider::builder(rt)
        .with_log_processor(processor)
        .build(alloc)?;
    assert!(rt; is_failure(provider.force_flush(), "flush"));
    assert!(rt; is_failure(provider.shutdown(), "flush"));
    let processor = provider
        .processor()
        .ok()
        .expect(&rt, "a processor that isn't at work");
    processor.exporter().fails_to_flush.set(false);
    drop(processor);
    assert!(rt; is_failure(provider.shutdown(), "shutdown"));
    Ok(())
}

#[test]
fn a_context_names_its_span_and_suppresses(rt: HostRuntime) -> Result<(), Fail> {
    let alloc = rt.alloc();
    let provider = in_memory(rt)?;
    let logger = provider.logger(alloc, StringValue::from("tests"))?;
    for (flags, is_remote) in [(0, false), (0, true), (1, true), (3, false)] {
        let ids = (TraceId::from(7), SpanId::from(8));
        let flags = TraceFlags::new(flags);
        let span = SpanContext::new(ids.0, ids.1, flags, is_remote, TraceState::NONE);
        let context = Context::new().with_remote_span_context(alloc, span)?;
        logger.emit_in(&context, logger.create_log_record(alloc)?);
        let mut named = logger.create_log_record(alloc)?;
        named.set_trace_context(TraceId::from(1), SpanId::from(2), None);
        logger.emit_in(&context, named);
        assert!(rt; logger.event_enabled_in(&context, Severity::Info, "t", None));
        let suppressed = context.with_telemetry_suppressed(alloc)?;
        logger.emit_in(&suppressed, logger.create_log_record(alloc)?);
        assert!(rt; !logger.event_enabled_in(&suppressed, Severity::Info, "t", None));
        let processor = provider
            .processor()
            .ok()
            .expect(&rt, "a processor that isn't at work");
        let records = processor.exporter().get_emitted_logs()?;
        let [.., first, second] = records.as_slice() else {
            assert!(rt; false, "other records");
            return Ok(());
        };
        let span = first.record.trace_context.expect(&rt, "a span");
        assert_eq!(rt; span.trace_id, ids.0);
        assert_eq!(rt; span.span_id, ids.1);
        assert_eq!(rt; span.trace_flags, Some(flags));
        let own = second.record.trace_context.expect(&rt, "a span");
        assert_eq!(rt; own.span_id, SpanId::from(2));
        assert_eq!(rt; own.trace_flags, None);
    }
    logger.emit_in(&Context::new(), logger.create_log_record(alloc)?);
    assert_eq!(rt; numbers(&rt, alloc, &provider).len(), 9);
    assert_eq!(rt; provider.dropped_records(), 0);
    Ok(())
}

/// A processor that wants records of one target, and hands them on.
#[derive(Drop)]
struct OfTarget<P> {
    target: &'static str,
    inner: P,
}

impl<P: LogProcessor> LogProcessor for OfTarget<P> {
    ghost received = { λ p. P.received p.inner };

    ghost receives = { λ p. P.receives p.inner };

    ghost may_refuse = { λ _ _ _ _. Unit {0} };

    fn on_emit(&mut self, given: LogData) {
        self.inner.on_emit(given);
    }

    fn force_flush(&mut self) -> OTelSdkResult {
        self.inner.force_flush()
    }

    fn shutdown(&mut self) -> OTelSdkResult {
        self.inner.shutdown()
    }

    fn is_open(&self) -> bool {
        self.inner.is_open()
    }

    fn event_enabled(&self, severity: Severity, target: &str, name: Option<&str>) -> bool {
        target == self.target && self.inner.event_enabled(severity, target, name)
    }

    fn dropped_records(&self) -> u64 {
        self.inner.dropped_records()
    }

    fn set_resource(&mut self, resource: Rc<Resource>) {
        self.inner.set_resource(resource);
    }
}

#[test]
fn a_processor_chooses_the_records_that_it_wants(rt: HostRuntime) -> Result<(), Fail> {
    let alloc = rt.alloc();
    let inner = SimpleLogProcessor::new(alloc, InMemoryLogExporter::new(alloc))?;
    assert!(rt; inner.event_enabled(Severity::Trace, "t", None));
    let provider = SdkLoggerProvider::builder(rt)
        .with_log_processor(OfTarget {
            target: "cart",
            inner,
        })
        .build(alloc)?;
    let logger = provider.logger(alloc, StringValue::from("tests"))?;
    assert!(rt; logger.event_enabled(Severity::Info, "cart", None));
    assert!(rt; !logger.event_enabled(Severity::Info, "car", Some("event")));
    assert!(rt; provider.shutdown().is_ok());
    assert!(rt; !logger.event_enabled(Severity::Info, "cart", None));
    Ok(())
}

#[test]
fn a_disabled_provider_emits_nothing(rt: HostRuntime) -> Result<(), Fail> {
    let alloc = rt.alloc();
    let processor = SimpleLogProcessor::new(alloc, InMemoryLogExporter::new(alloc))?;
    let provider = SdkLoggerProvider::builder(rt)
        .with_log_processor(processor)
        .with_clock(ManualClock::new(5))
        .disabled()
        .build(alloc)?;
    let logger = provider.logger(alloc, StringValue::from("tests"))?;
    assert!(rt; !logger.event_enabled(Severity::Fatal4, "t", None));
    assert!(rt; !logger.event_enabled_in(&Context::new(), Severity::Fatal4, "t", None));
    emit(alloc, &logger, 1)?;
    logger.emit_in(&Context::new(), logger.create_log_record(alloc)?);
    assert_eq!(rt; provider.dropped_records(), 0);
    assert!(rt; provider.force_flush().is_ok());
    assert!(rt; numbers(&rt, alloc, &provider).is_empty());
    assert!(rt; provider.shutdown().is_ok());
    Ok(())
}
