//! The ids of spans, and the names of the tracers of providers.
use opentelemetry::trace::{Span, SpanBuilder, SpanId, TraceId, Tracer, TracerProvider};
use opentelemetry::{Context, StringValue};
use otel_examples::recording::RecordingTracerProvider;
use std::alloc::{AllocError, Global};
use std::test::Fail;
use test_support::{remote_span_context, tracer};

/// The number of both ids of the parent, and the ids of a span under it.
const IDS: &[(u64, u128, u64)] = &[(0, 7, 1), (40, 40, 41), (u64::MAX, 0xffffffffffffffff, 0)];

#[test]
fn a_span_is_in_its_parents_trace_with_the_id_after_its_parents(
    rt: HostRuntime,
) -> Result<(), Fail> {
    let alloc = rt.alloc();
    for (number, trace_id, span_id) in IDS {
        let remote = remote_span_context(*number);
        let parent = Context::new().with_remote_span_context(alloc, remote)?;
        let builder = SpanBuilder::from_name(StringValue::from("work"));
        let span = tracer().build_with_context(alloc, builder, &parent)?;
        assert_eq!(rt; span.name(), "work");
        assert_eq!(rt; span.span_context().trace_id(), TraceId::from(*trace_id));
        assert_eq!(rt; span.span_context().span_id(), SpanId::from(*span_id));
        assert!(rt; span.span_context().is_sampled() && !span.span_context().is_remote());
    }
    Ok(())
}

/// A span from a tracer with this name.
fn started<P: TracerProvider>(
    alloc: Global,
    provider: &P,
    name: &'static str,
) -> Result<<P::Tracer as Tracer>::Span, AllocError>
where
    P::Tracer: Drop,
{
    let tracer = provider.tracer(alloc, StringValue::from(name))?;
    tracer.start_with_context(alloc, StringValue::from("work"), &Context::new())
}

#[test]
fn a_tracer_of_a_name_starts_spans(rt: HostRuntime) -> Result<(), Fail> {
    let provider = RecordingTracerProvider {
        trace_id: TraceId::from(7),
    };
    let tracer = provider.tracer(rt.alloc(), StringValue::from("lib"))?;
    assert_eq!(rt; tracer.scope.name(), "lib");
    let span = started(rt.alloc(), &provider, "lib")?;
    assert_eq!(rt; span.span_context().trace_id(), TraceId::from(7));
    assert_eq!(rt; span.name(), "work");
    Ok(())
}
