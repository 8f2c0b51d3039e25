//! Each item at its path in the Rust crate, or at the path that the documents name.
use std::test::Fail;

mod root {
    pub use opentelemetry::{
        Array, Context, ContextGuard, InstrumentationScope, InstrumentationScopeBuilder, Key,
        KeyValue, SpanId, StringValue, TraceFlags, TraceId, Value,
    };
}

mod baggage {
    pub use opentelemetry::baggage::{Baggage, BaggageMetadata, Iter, KeyValueMetadata};
}

mod context {
    pub use opentelemetry::context::{Context, ContextGuard, ContextStack};
}

mod propagation {
    pub use opentelemetry::propagation::composite::TextMapCompositePropagator as Composite;
    pub use opentelemetry::propagation::text_map_propagator::{
        FieldIter, TextMapPropagator as Propagator,
    };
    pub use opentelemetry::propagation::{
        Extractor, Injector, PropagationError, TextMapCompositePropagator, TextMapPropagator,
    };
}

mod trace {
    pub use opentelemetry::trace::noop::{
        NoopSpan, NoopTextMapPropagator, NoopTracer, NoopTracerProvider,
    };
    pub use opentelemetry::trace::{
        Event, Link, Span, SpanBody, SpanBuilder, SpanCause, SpanContext, SpanId, SpanKind,
        SpanRef, SpanRefused, Spans, StartError, Status, TraceFlags, TraceId, TraceState,
        TraceStateError, TraceStateIter, Tracer, TracerProvider, get_active_span,
        mark_span_as_active,
    };
}

mod logs {
    pub use opentelemetry::logs::{
        AnyValue, LogRecord, Logger, LoggerProvider, NoopLogRecord, NoopLogger, NoopLoggerProvider,
        Severity,
    };
}

mod carry {
    pub use opentelemetry::carry::{AttachOutcome, RunReport, StackEvent, run};
}

#[test]
fn each_item_stands_at_its_path(rt: HostRuntime) -> Result<(), Fail> {
    assert!(rt; root::TraceId::INVALID == trace::TraceId::INVALID);
    Ok(())
}
