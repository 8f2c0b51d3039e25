//! Tracers, spans and propagators that do nothing.
use crate::members::{entry, with_text};
use opentelemetry::context::{Context, ContextStack};
use opentelemetry::propagation::TextMapPropagator;
use opentelemetry::trace::noop::{NoopSpan, NoopTextMapPropagator, NoopTracer, NoopTracerProvider};
use opentelemetry::trace::{Span, SpanContext, Spans, Status, Tracer, TracerProvider};
use opentelemetry::{InstrumentationScope, Key, KeyValue, SpanId, StringValue, TraceId, Value};
use std::alloc::Global;
use std::test::Fail;
use test_support::{held, map_of, remote_span_context, span, span_context};

/// The ids of a parent, valid or not.
const PARENTS: &[u64] = &[42, 0];

#[test]
fn a_span_has_its_parents_span_context(rt: HostRuntime) -> Result<(), Fail> {
    let alloc = rt.alloc();
    let scope = InstrumentationScope::builder(StringValue::from("m")).build(alloc)?;
    let tracer = NoopTracerProvider::new().tracer_with_scope(alloc, scope)?;
    for id in PARENTS {
        let parent = Context::new().with_remote_span_context(alloc, remote_span_context(*id))?;
        let span = tracer.start_with_context(alloc, StringValue::from("n"), &parent)?;
        assert!(rt; *span.span_context() == remote_span_context(*id));
        assert!(rt; !span.is_recording());
        assert!(rt; *span.clone()?.span_context() == remote_span_context(*id));
    }
    let stack = ContextStack::new(alloc)?;
    let named = NoopTracerProvider::default().tracer(alloc, StringValue::from("m"))?;
    let span = named.start(alloc, &stack, StringValue::from("n"))?;
    assert!(rt; *span.span_context() == SpanContext::NONE);
    Ok(())
}

/// The parent's span may be of any type. Without a parent, the span context isn't valid.
#[test]
fn a_span_starts_under_a_span_that_records(rt: HostRuntime) -> Result<(), Fail> {
    let alloc = rt.alloc();
    let tracer = NoopTracer::new();
    let alone = tracer.start_with_context(alloc, StringValue::from("foo"), &Context::new())?;
    assert!(rt; *alone.span_context() == SpanContext::NONE);
    assert!(rt; !alone.span_context().is_valid());
    let mut spans = Spans::new(alloc);
    let Ok(parent) = Context::new().with_span(alloc, &mut spans, span(alloc, 42)) else {
        panic!(&rt; "the span is refused");
    };
    let under = tracer.start_with_context(alloc, StringValue::from("foo"), &parent)?;
    assert_eq!(rt; under.span_context().trace_id(), TraceId::from(42));
    assert_eq!(rt; under.span_context().span_id(), SpanId::from(42));
    assert!(rt; *under.span_context() == span_context(42));
    assert!(rt; under.span_context().is_valid() && !under.is_recording());
    assert_eq!(rt; spans.len(), 1);
    Ok(())
}

fn one_attribute(alloc: Global) -> KeyValue {
    let _ = alloc;
    KeyValue::new(Key::from("k"), Value::from(1))
}

#[test]
fn a_span_ignores_all_it_is_told(rt: HostRuntime) -> Result<(), Fail> {
    let alloc = rt.alloc();
    let mut span = NoopSpan::DEFAULT;
    let name = StringValue::from("e");
    span.add_event(alloc, name, Vec::new(alloc), 1)?;
    span.add_event_with_timestamp(alloc, StringValue::from("e"), 1, Vec::new(alloc))?;
    span.set_attribute(alloc, one_attribute(alloc))?;
    let mut attributes = Vec::new(alloc);
    attributes.push(one_attribute(alloc))?;
    span.set_attributes(alloc, attributes)?;
    span.add_link(alloc, span_context(1), Vec::new(alloc))?;
    span.record_error(alloc, &7u64, 1)?;
    span.set_status(Status::Ok);
    span.update_name(StringValue::from("other"));
    span.end(2);
    span.end_with_timestamp(3);
    assert!(rt; !span.is_recording());
    assert!(rt; *span.span_context() == SpanContext::NONE);
    let tracer = NoopTracer::new();
    let stack = ContextStack::new(alloc)?;
    let built = tracer.build(alloc, tracer.span_builder(StringValue::from("n")), &stack)?;
    assert!(rt; !built.is_recording());
    Ok(())
}

#[test]
fn the_noop_propagator_gives_the_given_context(rt: HostRuntime) -> Result<(), Fail> {
    let alloc = rt.alloc();
    let mut stack = ContextStack::new(alloc)?;
    assert!(rt;
        stack
            .push(with_text(alloc, &Context::new(), "a", "2")?)
            .is_ok()
    );
    let context = with_text(alloc, &Context::new(), "a", "1")?;
    let noop = NoopTextMapPropagator::new();
    let mut texts = map_of(alloc, &[("x", "1")])?;
    assert!(rt; noop.inject_context(&context, &mut texts).is_ok());
    assert_eq!(rt; texts.len(), 1);
    match noop.extract_with_context(alloc, &context, &texts) {
        Ok(given) => assert_eq!(rt; entry(&given, "a"), "1"),
        Err(_) => assert!(rt; false),
    }
    assert!(rt; NoopTextMapPropagator.fields().next().is_none());
    Ok(())
}

#[test]
fn the_noop_propagator_takes_a_suppressed_context(rt: HostRuntime) -> Result<(), Fail> {
    let alloc = rt.alloc();
    let context = with_text(alloc, &Context::new(), "a", "1")?.with_telemetry_suppressed(alloc)?;
    let mut texts = map_of(alloc, &[("x", "1")])?;
    let noop = NoopTextMapPropagator::new();
    assert!(rt; noop.inject_context(&context, &mut texts).is_ok());
    assert_eq!(rt; texts.len(), 1);
    assert_eq!(rt; held(&texts, "x"), "1");
    match noop.extract_with_context(alloc, &context, &texts) {
        Ok(given) => {
            assert_eq!(rt; entry(&given, "a"), "1");
            assert!(rt; given.is_telemetry_suppressed());
        }
        Err(_) => assert!(rt; false),
    }
    Ok(())
}
