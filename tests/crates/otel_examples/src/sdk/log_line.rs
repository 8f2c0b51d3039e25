//! Lines of a log, with and without a span.
use opentelemetry::logs::{AnyValue, Severity};
use opentelemetry::trace::{SpanContext, SpanId, TraceFlags, TraceId, TraceState};
use opentelemetry::{Context, InstrumentationScope, StringValue};
use otel_examples::recording::RecordingLogger;
use otel_examples::sdk::log_line::no_price;
use std::alloc::{AllocError, Global};
use std::test::Fail;

/// A logger that wants records of at least this severity.
fn logger(alloc: Global, least: Severity) -> Result<RecordingLogger, AllocError> {
    let scope = InstrumentationScope::builder(StringValue::from("app")).build(alloc)?;
    Ok(RecordingLogger::new(alloc, scope, least))
}

#[test]
fn a_line_names_its_span(rt: HostRuntime) -> Result<(), Fail> {
    let alloc = rt.alloc();
    let span = SpanContext::new(
        TraceId::from(1),
        SpanId::from(2),
        TraceFlags::SAMPLED,
        false,
        TraceState::NONE,
    );
    let context = Context::new().with_remote_span_context(alloc, span)?;
    let logger = logger(alloc, Severity::Info)?;
    let line = no_price(alloc, &logger, &context)?.expect(&rt, "a line");
    assert_eq!(rt; line.severity_number, Some(Severity::Warn));
    assert!(rt; line.severity_text == Some(StringValue::from("WARN")));
    assert!(rt; line.target == Some(StringValue::from("cart")));
    assert!(rt; line.body == Some(AnyValue::from("no price")));
    let span = line.trace_context.expect(&rt, "a span");
    assert_eq!(rt; span.trace_id, TraceId::from(1));
    assert_eq!(rt; span.span_id, SpanId::from(2));
    assert_eq!(rt; span.trace_flags, Some(TraceFlags::SAMPLED));
    Ok(())
}

#[test]
fn without_a_span_it_names_none(rt: HostRuntime) -> Result<(), Fail> {
    let alloc = rt.alloc();
    let logger = logger(alloc, Severity::Info)?;
    let line = no_price(alloc, &logger, &Context::new())?.expect(&rt, "a line");
    assert!(rt; line.trace_context.is_none());
    Ok(())
}

#[test]
fn a_logger_that_wants_errors_only_gets_no_warning(rt: HostRuntime) -> Result<(), Fail> {
    let alloc = rt.alloc();
    let logger = logger(alloc, Severity::Error)?;
    assert!(rt; no_price(alloc, &logger, &Context::new())?.is_none());
    Ok(())
}
