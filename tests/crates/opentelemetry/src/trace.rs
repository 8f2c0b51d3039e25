//! Spans and their parts.
mod event;
mod in_span;
mod link;
mod noop;
mod span_builder;
mod tracer;
mod tracer_provider;

use opentelemetry::trace::{SpanContext, SpanId, TraceFlags, TraceId, TraceState};
use opentelemetry::{Key, KeyValue, Value};
use std::alloc::{AllocError, Global};

fn one_attribute(
    alloc: Global,
    key: &'static str,
    value: i64,
) -> Result<Vec<KeyValue>, AllocError> {
    let mut attributes = Vec::new(alloc);
    attributes.push(KeyValue::new(Key::from(key), Value::from(value)))?;
    Ok(attributes)
}

fn span_context(trace_id: u128, span_id: u64) -> SpanContext {
    SpanContext::new(
        TraceId::from(trace_id),
        SpanId::from(span_id),
        TraceFlags::NOT_SAMPLED,
        false,
        TraceState::NONE,
    )
}
