//! Tracers that start spans.
use opentelemetry::context::{Context, ContextStack};
use opentelemetry::trace::{
    Event, Link, Span, SpanBuilder, SpanId, SpanKind, Status, TraceId, Tracer,
};
use opentelemetry::{Key, KeyValue, StringValue, Value};
use otel_examples::recording::{Effect, RecordingSpan};
use std::alloc::{AllocError, Global};
use std::test::Fail;
use test_support::{span_context, tracer};

fn work() -> StringValue {
    StringValue::from("work")
}

/// A tracer that records every part of the builder on the span.
#[derive(Drop)]
struct TellingTracer;

impl Tracer for TellingTracer {
    type Span = RecordingSpan;

    ghost may_build = { λ tracer builder parent span. Unit {0} };

    fn build_with_context(
        &self,
        alloc: Global,
        builder: SpanBuilder,
        parent: &Context,
    ) -> Result<RecordingSpan, AllocError> {
        let _ = parent;
        let SpanBuilder {
            span_kind,
            name,
            start_time,
            attributes,
            events,
            links,
        } = builder;
        let mut span = RecordingSpan::new(alloc, span_context(1), name);
        if span_kind == Some(SpanKind::Server) && start_time == Some(3) {
            span.set_status(Status::Ok);
        }
        if let Some(attributes) = attributes {
            span.set_attributes(alloc, attributes)?;
        }
        if let Some(events) = events {
            for event in events {
                span.add_event(alloc, event.name, event.attributes, event.timestamp)?;
            }
        }
        if let Some(links) = links {
            for link in links {
                span.add_link(alloc, link.span_context, link.attributes)?;
            }
        }
        Ok(span)
    }
}

#[test]
fn a_tracer_is_handed_each_part_of_a_builder(rt: HostRuntime) -> Result<(), Fail> {
    let alloc = rt.alloc();
    let stack = ContextStack::new(alloc)?;
    let mut attributes = Vec::new(alloc);
    attributes.push(KeyValue::new(Key::from("k"), Value::from(1)))?;
    let mut events = Vec::new(alloc);
    events.push(Event::with_name(alloc, StringValue::from("e"), 5))?;
    let mut links = Vec::new(alloc);
    links.push(Link::with_context(alloc, span_context(2)))?;
    let span = SpanBuilder::from_name(work())
        .with_kind(SpanKind::Server)
        .with_start_time(3)
        .with_attributes(attributes)
        .with_events(events)
        .with_links(links)
        .start(alloc, &TellingTracer, &stack)?;
    assert_eq!(rt; span.name(), "work");
    assert!(rt; *span.status() == Status::Ok);
    assert_eq!(rt; span.effects().len(), 3);
    assert!(rt; matches!(&span.effects()[0], Effect::Attribute(_)));
    assert!(rt; matches!(&span.effects()[1], Effect::Event(_, 5, _)));
    assert!(rt; matches!(&span.effects()[2], Effect::Link(_, _)));
    Ok(())
}

#[test]
fn a_span_is_started_under_the_current_context(rt: HostRuntime) -> Result<(), Fail> {
    let alloc = rt.alloc();
    let mut stack = ContextStack::new(alloc)?;
    let remote = span_context(40);
    stack.push(Context::new().with_remote_span_context(alloc, remote)?)?;
    let builder = tracer().span_builder(work());
    let started = [
        tracer().start(alloc, &stack, work())?,
        tracer().build(alloc, tracer().span_builder(work()), &stack)?,
        tracer().start_with_context(alloc, work(), stack.current())?,
        builder.start(alloc, &tracer(), &stack)?,
        SpanBuilder::from_name(work()).start_with_context(alloc, &tracer(), stack.current())?,
    ];
    for span in started {
        assert_eq!(rt; span.name(), "work");
        assert!(rt; span.span_context().trace_id() == TraceId::from(40));
        assert!(rt; span.span_context().span_id() == SpanId::from(41));
    }
    Ok(())
}
