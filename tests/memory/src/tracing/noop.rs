//! Calls on types that do nothing. None of them allocates.
use crate::lines::Lines;
use crate::tracing::spans::attribute;
use opentelemetry::context::Context;
use opentelemetry::logs::{
    AnyValue, LogRecord, Logger, LoggerProvider, NoopLogRecord, NoopLogger, NoopLoggerProvider,
};
use opentelemetry::propagation::TextMapPropagator;
use opentelemetry::trace::noop::{NoopSpan, NoopTextMapPropagator, NoopTracer, NoopTracerProvider};
use opentelemetry::trace::{Span, SpanContext, Tracer, TracerProvider};
use opentelemetry::{InstrumentationScope, Key, StringValue};
use std::alloc::{AllocError, Global};
use std::collections::HashMap;

pub fn play<R: Print>(alloc: Global, lines: &Lines<'_, R>) {
    if lines.begin("noop-span") {
        span(alloc, lines, &mut NoopSpan::DEFAULT);
    }
    if lines.begin("noop-tracer") {
        tracer(alloc, lines);
    }
    if lines.begin("noop-tracer-provider") {
        tracer_provider(alloc, lines);
    }
    if lines.begin("noop-logger-provider") {
        logger_provider(alloc, lines);
    }
    if lines.begin("noop-log-record") {
        log_record(alloc, lines);
    }
    if lines.begin("noop-propagator") {
        propagator(alloc, lines);
    }
}

fn span<R: Print>(alloc: Global, lines: &Lines<'_, R>, span: &mut NoopSpan) {
    let answer = span.add_event(alloc, StringValue::from("e"), Vec::new(alloc), 1);
    lines.free_ok("NoopSpan::add_event", answer);
    let name = StringValue::from("e");
    let answer = span.add_event_with_timestamp(alloc, name, 1, Vec::new(alloc));
    lines.free_ok("NoopSpan::add_event_with_timestamp", answer);
    let answer = span.set_attribute(alloc, attribute());
    lines.free_ok("NoopSpan::set_attribute", answer);
    let answer = span.set_attributes(alloc, Vec::new(alloc));
    lines.free_ok("NoopSpan::set_attributes", answer);
    let answer = span.record_error(alloc, &"boom", 1);
    lines.free_ok("NoopSpan::record_error", answer);
    let answer = span.add_link(alloc, SpanContext::NONE, Vec::new(alloc));
    lines.free_ok("NoopSpan::add_link", answer);
    lines.free_ok("NoopSpan::clone", span.clone());
}

fn tracer<R: Print>(alloc: Global, lines: &Lines<'_, R>) {
    let tracer = NoopTracer::new();
    let builder = tracer.span_builder(StringValue::from("s"));
    let answer = tracer.build_with_context(alloc, builder, &Context::new());
    lines.free_ok("NoopTracer::build_with_context", answer);
}

/// A scope without attributes.
fn scope(alloc: Global) -> Result<InstrumentationScope, AllocError> {
    InstrumentationScope::builder(StringValue::from("m")).build(alloc)
}

fn tracer_provider<R: Print>(alloc: Global, lines: &Lines<'_, R>) {
    let provider = NoopTracerProvider::new();
    lines.free_ok(
        "NoopTracerProvider::tracer",
        provider.tracer(alloc, StringValue::from("m")),
    );
    if let Ok(scope) = scope(alloc) {
        let answer = provider.tracer_with_scope(alloc, scope);
        lines.free_ok("NoopTracerProvider::tracer_with_scope", answer);
    }
}

fn logger_provider<R: Print>(alloc: Global, lines: &Lines<'_, R>) {
    let provider = NoopLoggerProvider::new();
    lines.free_ok(
        "NoopLoggerProvider::logger",
        provider.logger(alloc, StringValue::from("m")),
    );
    if let Ok(scope) = scope(alloc) {
        let answer = provider.logger_with_scope(alloc, scope);
        lines.free_ok("NoopLoggerProvider::logger_with_scope", answer);
    }
}

fn log_record<R: Print>(alloc: Global, lines: &Lines<'_, R>) {
    lines.free_ok(
        "NoopLogger::create_log_record",
        NoopLogger.create_log_record(alloc),
    );
    let mut record = NoopLogRecord::default();
    let answer = record.add_attribute(alloc, Key::from("k"), AnyValue::Int(1));
    lines.free_ok("NoopLogRecord::add_attribute", answer);
    let answer = record.add_attributes(alloc, Vec::new(alloc));
    lines.free_ok("NoopLogRecord::add_attributes", answer);
}

fn propagator<R: Print>(alloc: Global, lines: &Lines<'_, R>) {
    let propagator = NoopTextMapPropagator::new();
    let mut carrier: HashMap<String, String> = HashMap::new(alloc);
    let answer = propagator.inject_context(&Context::new(), &mut carrier);
    lines.free_ok("NoopTextMapPropagator::inject_context", answer);
    let answer = propagator.extract_with_context(alloc, &Context::new(), &carrier);
    lines.free_ok("NoopTextMapPropagator::extract_with_context", answer);
}
