//! Span contexts, recording spans, and their tracer.
use otel_base::StringValue;
use otel_examples::recording::{RecordingSpan, RecordingTracer};
use otel_ids::{SpanContext, SpanId, TraceFlags, TraceId, TraceState};
use std::alloc::Global;

fn numbered(number: u64, is_remote: bool) -> SpanContext {
    SpanContext::new(
        TraceId::from(number as u128),
        SpanId::from(number),
        TraceFlags::SAMPLED,
        is_remote,
        TraceState::NONE,
    )
}

/// A local span context with this number as both ids.
pub fn span_context(number: u64) -> SpanContext {
    numbered(number, false)
}

/// A remote span context with this number as both ids.
pub fn remote_span_context(number: u64) -> SpanContext {
    numbered(number, true)
}

/// A span with this number as both ids, without effects.
pub fn span(alloc: Global, number: u64) -> RecordingSpan {
    RecordingSpan::new(alloc, span_context(number), StringValue::from("work"))
}

/// A tracer whose spans without a parent have the trace id 7.
pub fn tracer() -> RecordingTracer {
    RecordingTracer {
        trace_id: TraceId::from(7),
    }
}

/// The greatest number that a table gives to a span.
pub const LAST_NUMBER: u64 = 18446744073709551614;

/// The next number in a table, whether a span gets it, and the next number after that.
pub const NUMBERS: &[(u64, bool, u64)] = &[
    (LAST_NUMBER - 1, true, LAST_NUMBER),
    (LAST_NUMBER, true, u64::MAX),
    (u64::MAX, false, u64::MAX),
];
