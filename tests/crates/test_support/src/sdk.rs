//! Ended spans of the SDK.
use opentelemetry::trace::{
    SpanContext, SpanId, SpanKind, Status, TraceFlags, TraceId, TraceState,
};
use opentelemetry::{InstrumentationScope, StringValue};
use otel_sdk_span::{SpanData, SpanEvents, SpanLinks};
use std::alloc::{AllocError, Global};
use std::rc::Rc;

/// A local root in trace 7 with this number as its span id and these flags, which recorded nothing.
/// Tests change the fields that they test.
pub fn span_data(alloc: Global, number: u64, flags: u8) -> Result<SpanData, AllocError> {
    let scope = InstrumentationScope::builder(StringValue::from("tests")).build(alloc)?;
    Ok(SpanData {
        span_context: SpanContext::new(
            TraceId::from(7),
            SpanId::from(number),
            TraceFlags::new(flags),
            false,
            TraceState::NONE,
        ),
        parent_span_id: SpanId::INVALID,
        parent_span_is_remote: false,
        span_kind: SpanKind::Internal,
        name: StringValue::from("work"),
        start_time: 1,
        end_time: 2,
        attributes: Vec::new(alloc),
        dropped_attributes_count: 0,
        events: SpanEvents {
            events: Vec::new(alloc),
            dropped_count: 0,
        },
        links: SpanLinks {
            links: Vec::new(alloc),
            dropped_count: 0,
        },
        status: Status::Unset,
        instrumentation_scope: Rc::new(alloc, scope)?,
    })
}
