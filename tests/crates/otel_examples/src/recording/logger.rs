//! The records that loggers keep, and the names of the loggers of providers.
use opentelemetry::logs::{AnyValue, LogRecord, Logger, LoggerProvider, Severity};
use opentelemetry::{InstrumentationScope, StringValue};
use otel_examples::recording::{RecordingLogger, RecordingLoggerProvider};
use std::alloc::{AllocError, Global};
use std::test::Fail;

/// Emits a record with each body.
fn emit_each<L: Logger>(alloc: Global, logger: &L, bodies: &[i64]) -> Result<(), AllocError> {
    for body in bodies {
        let mut record = logger.create_log_record(alloc)?;
        record.set_body(AnyValue::Int(*body));
        logger.emit(record);
    }
    Ok(())
}

#[test]
fn a_logger_keeps_the_records_that_it_takes(rt: HostRuntime) -> Result<(), Fail> {
    let alloc = rt.alloc();
    let scope = InstrumentationScope::builder(StringValue::from("lib")).build(alloc)?;
    let logger = RecordingLogger::new(alloc, scope, Severity::Trace);
    emit_each(alloc, &logger, &[3, 1, 2])?;
    let emitted = logger.into_emitted();
    let [a, b, c] = emitted.as_slice() else {
        panic!(rt; "not three records")
    };
    assert!(rt; matches!(a.body, Some(AnyValue::Int(3))));
    assert!(rt; matches!(b.body, Some(AnyValue::Int(1))));
    assert!(rt; matches!(c.body, Some(AnyValue::Int(2))));
    Ok(())
}

/// A logger with this name.
fn named<P: LoggerProvider>(
    alloc: Global,
    provider: &P,
    name: &'static str,
) -> Result<P::Logger, AllocError> {
    provider.logger(alloc, StringValue::from(name))
}

const FROM_WARN: RecordingLoggerProvider = RecordingLoggerProvider {
    least: Severity::Warn,
};

#[test]
fn a_logger_of_a_name_has_that_name_alone(rt: HostRuntime) -> Result<(), Fail> {
    for name in ["lib", ""] {
        let logger = named(rt.alloc(), &FROM_WARN, name)?;
        assert_eq!(rt; logger.scope.name(), name);
        assert!(rt; logger.scope.version().is_none());
        assert!(rt; logger.scope.schema_url().is_none());
        assert_eq!(rt; logger.scope.attributes().count(), 0);
    }
    Ok(())
}

#[test]
fn an_event_is_enabled_from_the_least_severity_on(rt: HostRuntime) -> Result<(), Fail> {
    let logger = named(rt.alloc(), &FROM_WARN, "lib")?;
    assert!(rt; !logger.event_enabled(Severity::Info4, "t", Some("n")));
    assert!(rt; logger.event_enabled(Severity::Warn, "t", None));
    assert!(rt; logger.event_enabled(Severity::Fatal4, "", Some("n")));
    Ok(())
}
