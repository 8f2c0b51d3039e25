//! The calls that docs/DIFFERENCES.md shows to users of the Rust crate, each made once.
use opentelemetry::baggage::{Baggage, BaggageMetadata, KeyValueMetadata};
use opentelemetry::context::{Context, ContextStack, HasCurrent};
use opentelemetry::logs::{
    AnyValue, LogRecord, Logger, LoggerProvider, NoopLoggerProvider, Severity,
};
use opentelemetry::propagation::{TextMapCompositePropagator, TextMapPropagator};
use opentelemetry::trace::noop::{NoopSpan, NoopTextMapPropagator, NoopTracerProvider};
use opentelemetry::trace::{
    Event, Link, Run, Span, SpanContext, SpanId, SpanKind, Spans, Status, TraceFlags, TraceId,
    TraceState, Tracer, TracerProvider, get_active_span, mark_span_as_active,
};
use opentelemetry::{Array, InstrumentationScope, Key, KeyValue, StringValue, Value};
use std::alloc::{AllocError, Global};
use std::collections::HashMap;
use std::process::Abort;
use std::test::Fail;

/// The moment of all calls.
const NOW: u64 = 1;

/// A remote span context in a sampled trace.
fn remote() -> SpanContext {
    SpanContext::new(
        TraceId::from(7),
        SpanId::from(9),
        TraceFlags::SAMPLED,
        true,
        TraceState::NONE,
    )
}

#[test]
fn contexts(rt: HostRuntime) -> Result<(), Fail> {
    let alloc = rt.alloc();
    let mut stack = ContextStack::new(alloc)?;
    let context = stack.current_with_value(Key::from("k"), AnyValue::from(1))?;
    let context = context.with_value(alloc, Key::from("l"), AnyValue::from("v"))?;
    let context = context.with_remote_span_context(alloc, remote())?;
    assert!(rt; context.get("k") == Some(&AnyValue::Int(1)));
    let guard = stack.attach(context)?;
    let has_span = stack.map_current(|context| context.has_active_span());
    let id = stack.current().span_context().span_id();
    stack.detach(guard);
    assert!(rt; has_span);
    assert_eq!(rt; id, SpanId::from(9));
    assert!(rt; !stack.current().has_active_span());
    let guard = stack.enter_telemetry_suppressed_scope()?;
    let suppressed = stack.is_current_telemetry_suppressed();
    stack.detach(guard);
    assert!(rt; suppressed);
    Ok(())
}

#[test]
fn texts_and_attributes(rt: HostRuntime) -> Result<(), Fail> {
    let alloc = rt.alloc();
    let name = "made at run time";
    let key = Key::from(String::from_str(alloc, name)?);
    assert_eq!(rt; key.as_str(), name);
    let text = StringValue::from(String::from_str(alloc, name)?);
    assert_eq!(rt; text.as_str(), name);
    let attribute = KeyValue::new(Key::from("k"), Value::from(1));
    assert!(rt; attribute.value == Value::I64(1));
    let value = Value::Array(Array::from(vec![in alloc; true, false]?));
    let text = value.as_str(alloc)?;
    assert_eq!(rt; text.as_str(), "[true,false]");
    let scope = InstrumentationScope::builder(StringValue::from("lib"))
        .with_version(StringValue::from("1.0"))
        .build(alloc)?;
    assert_eq!(rt; scope.name(), "lib");
    Ok(())
}

#[test]
fn baggages(rt: HostRuntime) -> Result<(), Fail> {
    let alloc = rt.alloc();
    let mut baggage = Baggage::new(alloc);
    baggage.insert(Key::from("k"), StringValue::from("v"))?;
    for (key, (value, metadata)) in &baggage {
        assert_eq!(rt; key.as_str(), "k");
        assert_eq!(rt; value.as_str(), "v");
        assert_eq!(rt; metadata.as_str(), "");
    }
    let metadata = BaggageMetadata::new(alloc, " ttl=30 ")?;
    let member = KeyValueMetadata::new(Key::from("k"), StringValue::from("v"), metadata);
    let with_metadata = Baggage::from_key_values_with_metadata(alloc, vec![in alloc; member]?)?;
    let header = format!(in alloc; "{with_metadata}")?;
    assert_eq!(rt; header.as_str(), "k=v;ttl=30");
    let context = Context::new().with_baggage(alloc, baggage)?;
    let value = context.baggage().and_then(|baggage| baggage.get("k"));
    assert!(rt; value == Some(&StringValue::from("v")));
    let header = match context.baggage() {
        Some(baggage) => format!(in alloc; "{baggage}")?,
        None => String::new(alloc),
    };
    assert_eq!(rt; header.as_str(), "k=v");
    Ok(())
}

#[test]
fn ids_and_trace_states(rt: HostRuntime) -> Result<(), Fail> {
    let alloc = rt.alloc();
    let trace_id = TraceId::from_hex("0af7651916cd43dd8448eb211c80319c")?;
    let text = format!(in alloc; "{trace_id}")?;
    assert_eq!(rt; text.as_str(), "0af7651916cd43dd8448eb211c80319c");
    let state = TraceState::from_key_value(alloc, &[("a", "1")])?;
    assert!(rt; state == TraceState::from_str(alloc, "a=1")?);
    let state = state.insert(alloc, "b", "2")?;
    let state = state.delete(alloc, "a")?;
    assert!(rt; state.get("b") == Some("2"));
    let header = state.header(alloc)?;
    assert_eq!(rt; header.as_str(), "b=2");
    for (key, value) in &state {
        assert_eq!(rt; key, "b");
        assert_eq!(rt; value, "2");
    }
    Ok(())
}

/// Prints all that a span is given.
fn tell(alloc: Global, span: &mut NoopSpan, error: &AllocError) -> Result<(), AllocError> {
    span.set_attribute(alloc, KeyValue::new(Key::from("k"), Value::from("v")))?;
    span.add_event(alloc, StringValue::from("e"), Vec::new(alloc), NOW)?;
    span.add_link(alloc, remote(), Vec::new(alloc))?;
    span.record_error(alloc, error, NOW)?;
    span.set_status(Status::error(StringValue::from("why")));
    span.update_name(StringValue::from("n"));
    span.end(NOW);
    Ok(())
}

#[test]
fn spans(rt: HostRuntime) -> Result<(), Fail> {
    let alloc = rt.alloc();
    let stack = ContextStack::new(alloc)?;
    let provider = NoopTracerProvider::new();
    let tracer = provider.tracer(alloc, StringValue::from("lib"))?;
    let event = Event::with_name(alloc, StringValue::from("e"), NOW);
    assert_eq!(rt; event.timestamp, NOW);
    let link = Link::with_context(alloc, remote());
    assert!(rt; link.span_context == remote());
    let mut span = tracer.start(alloc, &stack, StringValue::from("work"))?;
    tell(alloc, &mut span, &AllocError)?;
    let context = Context::new().with_remote_span_context(alloc, remote())?;
    let child = tracer.start_with_context(alloc, StringValue::from("work"), &context)?;
    assert_eq!(rt; child.span_context().span_id(), SpanId::from(9));
    let built = tracer
        .span_builder(StringValue::from("work"))
        .with_kind(SpanKind::Client)
        .start(alloc, &tracer, &stack)?;
    assert!(rt; !built.is_recording());
    Ok(())
}

#[test]
fn spans_of_contexts(rt: HostRuntime) -> Result<(), Fail> {
    let alloc = rt.alloc();
    let mut stack = ContextStack::new(alloc)?;
    let mut spans = Spans::new(alloc);
    let (guard, number) = match mark_span_as_active(&mut stack, &mut spans, NoopSpan::DEFAULT) {
        Ok(active) => active,
        Err(_) => return Err(Fail::from("no room")),
    };
    get_active_span(&stack, &mut spans, |span| span.end(NOW));
    stack.detach(guard);
    assert!(rt; spans.take(number).is_some());
    let context = Context::new();
    match context.with_span(alloc, &mut spans, NoopSpan::DEFAULT) {
        Ok(context) => context.span(&mut spans).set_status(Status::Ok),
        Err(_) => assert!(rt; false),
    }
    match stack.current_with_span(&mut spans, NoopSpan::DEFAULT) {
        Ok(context) => assert_eq!(rt; context.span_number(), Some(2)),
        Err(_) => assert!(rt; false),
    }
    Ok(())
}

#[test]
fn work_in_a_span(rt: HostRuntime) -> Result<(), Fail> {
    let alloc = rt.alloc();
    let mut stack = ContextStack::new(alloc)?;
    let mut spans = Spans::new(alloc);
    let provider = NoopTracerProvider::new();
    let tracer = provider.tracer(alloc, StringValue::from("lib"))?;
    let ran = tracer.in_span(
        alloc,
        &mut stack,
        &mut spans,
        StringValue::from("work"),
        Run(|stack: &mut ContextStack, _spans: &mut Spans<NoopSpan>, _context: Context| {
            stack.newest_position()
        }),
    );
    match ran {
        Ok((position, number)) => assert_eq!(rt; (position, number), (1, 0)),
        Err(_) => assert!(rt; false),
    }
    Ok(())
}

#[test]
fn carriers(rt: HostRuntime) -> Result<(), Fail> {
    let alloc = rt.alloc();
    let stack = ContextStack::new(alloc)?;
    let mut carrier = HashMap::new(alloc);
    let propagator = NoopTextMapPropagator::new();
    propagator.inject(&stack, &mut carrier)?;
    propagator.inject_context(stack.current(), &mut carrier)?;
    let context = propagator.extract(alloc, &stack, &carrier)?;
    let context = propagator.extract_with_context(alloc, &context, &carrier)?;
    assert!(rt; !context.has_active_span());
    let mut members: Vec<Box<dyn TextMapPropagator>> = Vec::new(alloc);
    members.push(Box::new(alloc, NoopTextMapPropagator::new())?)?;
    let composite = TextMapCompositePropagator::new(alloc, members)?;
    composite.inject(&stack, &mut carrier)?;
    assert!(rt; carrier.is_empty());
    Ok(())
}

#[test]
fn logs(rt: HostRuntime) -> Result<(), Fail> {
    let alloc = rt.alloc();
    let provider = NoopLoggerProvider::new();
    let logger = provider.logger(alloc, StringValue::from("lib"))?;
    let mut record = logger.create_log_record(alloc)?;
    record.set_body(AnyValue::from("text"));
    record.set_severity_number(Severity::Warn);
    record.add_attribute(alloc, Key::from("k"), AnyValue::from(1))?;
    logger.emit(record);
    Ok(())
}
