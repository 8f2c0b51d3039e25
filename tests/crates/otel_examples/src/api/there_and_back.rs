//! A context that is sent in the W3C headers arrives, with each of the callers that send it.
use opentelemetry::baggage::Baggage;
use opentelemetry::carry::{AttachOutcome, StackEvent};
use opentelemetry::logs::AnyValue;
use opentelemetry::propagation::PropagationError;
use opentelemetry::trace::{SpanContext, SpanId, TraceFlags, TraceId, TraceState};
use opentelemetry::{Context, Key, StringValue};
use otel_examples::api::composite::{after_request_id, run_and_send};
use otel_examples::api::joined::{First, there_and_back_by};
use otel_examples::api::request_id::id_of;
use otel_examples::api::there_and_back::there_and_back;
use otel_propagators::{BaggagePropagator, TraceContextPropagator};
use std::alloc::{AllocError, Global};
use std::collections::HashMap;
use std::process::Abort;
use std::test::Fail;

/// The `traceparent` in the W3C document's example.
const TRACEPARENT: &str = "00-4bf92f3577b34da6a3ce929d0e0e4736-00f067aa0ba902b7-01";

/// The example's span, with a baggage of one member.
fn sent_context(alloc: Global) -> Result<Context, AllocError> {
    let Ok(state) = TraceState::from_str(alloc, "congo=t61rcWkgMzE") else {
        return Err(AllocError);
    };
    let span_context = SpanContext::new(
        TraceId::from(0x4bf92f3577b34da6a3ce929d0e0e4736),
        SpanId::from(0x00f067aa0ba902b7),
        TraceFlags::SAMPLED,
        false,
        state,
    );
    let mut baggage = Baggage::new(alloc);
    drop(baggage.insert(Key::from("serverNode"), StringValue::from("DF 28"))?);
    Context::new()
        .with_remote_span_context(alloc, span_context)?
        .with_baggage(alloc, baggage)
}

/// A context with this request id.
fn with_id(alloc: Global, context: &Context, id: &'static str) -> Result<Context, AllocError> {
    let id = AnyValue::String(StringValue::from(id));
    context.with_value(alloc, Key::from("request.id"), id)
}

fn given<T>(outcome: Result<T, PropagationError>) -> Result<T, AllocError> {
    match outcome {
        Ok(given) => Ok(given),
        Err(_) => Err(AllocError),
    }
}

/// Returns whether the carrier has the header with this value.
fn has(carrier: &HashMap<String, String>, key: &str, value: &str) -> bool {
    matches!(carrier.get(key), Some(held) if held.as_str() == value)
}

/// Asserts that the headers are the example's, and that its span and member arrived.
fn assert_arrived(rt: &impl Abort, carrier: &HashMap<String, String>, back: &Context) {
    assert!(rt; has(carrier, "traceparent", TRACEPARENT));
    assert!(rt; has(carrier, "tracestate", "congo=t61rcWkgMzE"));
    assert!(rt; has(carrier, "baggage", "serverNode=DF%2028"));
    let span = back.span_context();
    assert!(rt; back.has_active_span());
    assert!(rt; span.is_remote());
    assert!(rt; span.trace_id() == TraceId::from(0x4bf92f3577b34da6a3ce929d0e0e4736));
    assert!(rt; span.span_id() == SpanId::from(0x00f067aa0ba902b7));
    assert!(rt; span.trace_flags() == TraceFlags::SAMPLED);
    let member = back.baggage().and_then(|baggage| baggage.get("serverNode"));
    assert!(rt; matches!(member, Some(value) if value.as_str() == "DF 28"));
}

#[test]
fn a_context_arrives_by_both_propagators_in_turn(rt: HostRuntime) -> Result<(), Fail> {
    let alloc = rt.alloc();
    let trace = TraceContextPropagator::new(alloc)?;
    let baggage = BaggagePropagator::new(alloc)?;
    let sent = sent_context(alloc)?;
    let mut carrier = HashMap::new(alloc);
    let back = given(there_and_back(alloc, &trace, &baggage, &sent, &mut carrier))?;
    assert_arrived(&rt, &carrier, &back);
    Ok(())
}

#[test]
fn a_context_arrives_by_composites_joined_in_either_order(rt: HostRuntime) -> Result<(), Fail> {
    let alloc = rt.alloc();
    let sent = sent_context(alloc)?;
    for first in [First::Trace, First::Baggage] {
        let mut carrier = HashMap::new(alloc);
        let back = given(there_and_back_by(alloc, first, &sent, &mut carrier))?;
        assert_arrived(&rt, &carrier, &back);
    }
    Ok(())
}

#[test]
fn a_context_arrives_after_the_id_of_its_request(rt: HostRuntime) -> Result<(), Fail> {
    let alloc = rt.alloc();
    let sent = with_id(alloc, &sent_context(alloc)?, "r-7")?;
    let mut carrier = HashMap::new(alloc);
    let back = given(after_request_id(alloc, &sent, &mut carrier))?;
    assert_arrived(&rt, &carrier, &back);
    assert!(rt; has(&carrier, "x-request-id", "r-7"));
    assert!(rt; id_of(&back) == Some("r-7"));
    Ok(())
}

#[test]
fn a_run_sends_what_its_latest_attach_carries(rt: HostRuntime) -> Result<(), Fail> {
    let alloc = rt.alloc();
    let mut events = Vec::new(alloc);
    events.push(StackEvent::Attach(with_id(alloc, &sent_context(alloc)?, "r-7")?))?;
    events.push(StackEvent::Attach(with_id(alloc, &Context::new(), "r-8")?))?;
    events.push(StackEvent::Detach(1))?;
    let mut carrier = HashMap::new(alloc);
    let report = run_and_send(alloc, events, &mut carrier)?;
    assert!(rt; report.injected.is_ok());
    let outcomes = [AttachOutcome::Attached(1), AttachOutcome::Attached(2)];
    assert!(rt; report.outcomes.as_slice() == outcomes.as_slice());
    assert!(rt; carrier.len() == 2);
    assert!(rt; has(&carrier, "x-request-id", "r-7"));
    assert!(rt; has(&carrier, "baggage", "serverNode=DF%2028"));
    Ok(())
}
