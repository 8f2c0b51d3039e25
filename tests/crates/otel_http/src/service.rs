//! A received request and a sent one.
use crate::extractor::headers;
use http_header::HeaderMap;
use opentelemetry::Context;
use opentelemetry::propagation::{Extractor, PropagationError, TextMapPropagator};
use opentelemetry::trace::{SpanContext, SpanId, TraceFlags, TraceId, TraceState};
use otel_http::there_and_back::there_and_back;
use otel_http::{HeaderExtractor, HeaderInjector};
use otel_propagators::{BaggagePropagator, TraceContextPropagator};
use std::alloc::Global;
use std::test::Fail;

/// Returns the headers to send for the received headers.
pub fn forward<P: TextMapPropagator>(
    alloc: Global,
    propagator: &P,
    received: &HeaderMap,
) -> Result<HeaderMap, PropagationError> {
    let extractor = HeaderExtractor::new(alloc, received)?;
    let context = propagator.extract_with_context(alloc, &Context::new(), &extractor)?;
    let mut injector = HeaderInjector::new(HeaderMap::new(alloc));
    propagator.inject_context(&context, &mut injector)?;
    Ok(injector.into_headers())
}

#[test]
fn both_lines_of_a_trace_state_go_on_as_one(rt: HostRuntime) -> Result<(), Fail> {
    let alloc = rt.alloc();
    let parent = "00-0af7651916cd43dd8448eb211c80319c-b7ad6b7169203331-01";
    let received = headers(
        alloc,
        &[
            ("TraceParent", parent.as_bytes()),
            ("tracestate", b"a=1"),
            ("tracestate", b"b=2"),
        ],
    )?;
    let propagator = TraceContextPropagator::new(alloc)?;
    let sent = forward(alloc, &propagator, &received)?;
    assert_eq!(rt; sent.len(), 2);
    assert!(rt; sent["traceparent"].as_bytes() == parent.as_bytes());
    assert!(rt; sent["tracestate"].as_bytes() == b"a=1,b=2".as_slice());
    Ok(())
}

#[test]
fn an_unfolded_line_has_both_members(rt: HostRuntime) -> Result<(), Fail> {
    let alloc = rt.alloc();
    let parent = "00-0af7651916cd43dd8448eb211c80319c-b7ad6b7169203331-01";
    let received = headers(
        alloc,
        &[
            ("traceparent", parent.as_bytes()),
            ("tracestate", b"a=1, b=2"),
        ],
    )?;
    let extractor = HeaderExtractor::new(alloc, &received)?;
    assert!(rt; extractor.get(alloc, "tracestate")? == Some("a=1, b=2"));
    let propagator = TraceContextPropagator::new(alloc)?;
    let context = propagator.extract_with_context(alloc, &Context::new(), &extractor)?;
    let state = context.span_context().trace_state();
    assert!(rt; state.get("a") == Some("1"));
    assert!(rt; state.get("b") == Some("2"));
    Ok(())
}

#[test]
fn a_trace_state_that_is_refused_leaves_the_parent(rt: HostRuntime) -> Result<(), Fail> {
    let alloc = rt.alloc();
    let span = SpanContext::new(
        TraceId::from(1),
        SpanId::from(2),
        TraceFlags::SAMPLED,
        true,
        TraceState::from_str(alloc, "a=\u{e9}")?,
    );
    let context = Context::new().with_remote_span_context(alloc, span)?;
    let propagator = TraceContextPropagator::new(alloc)?;
    let mut injector = HeaderInjector::new(HeaderMap::new(alloc));
    let answer = propagator.inject_context(&context, &mut injector);
    assert!(rt; answer == Err(PropagationError::Refused));
    let sent = injector.into_headers();
    assert_eq!(rt; sent.len(), 1);
    let parent = b"00-00000000000000000000000000000001-0000000000000002-01".as_slice();
    assert!(rt; sent["traceparent"].as_bytes() == parent);
    Ok(())
}

/// Returns a context whose span has this trace state.
fn traced(alloc: Global, state: &str) -> Result<Context, Fail> {
    let span = SpanContext::new(
        TraceId::from(1),
        SpanId::from(2),
        TraceFlags::SAMPLED,
        false,
        TraceState::from_str(alloc, state)?,
    );
    Ok(Context::new().with_remote_span_context(alloc, span)?)
}

#[test]
fn a_context_is_sent_and_received(rt: HostRuntime) -> Result<(), Fail> {
    let alloc = rt.alloc();
    let (trace, baggage) = (
        TraceContextPropagator::new(alloc)?,
        BaggagePropagator::new(alloc)?,
    );
    let mut injector = HeaderInjector::new(HeaderMap::new(alloc));
    let sent = traced(alloc, "a=1")?;
    let received = there_and_back(alloc, &trace, &baggage, &sent, &mut injector)?;
    let span = received.span_context();
    assert!(rt; span.trace_id() == TraceId::from(1));
    assert!(rt; span.span_id() == SpanId::from(2));
    assert!(rt; span.trace_state().get("a") == Some("1"));
    let text = format!(in alloc; "{injector}")?;
    let parent = "traceparent: 00-00000000000000000000000000000001-0000000000000002-01\n";
    assert!(rt; text.contains(parent));
    let unreadable = traced(alloc, "a=\u{e9}")?;
    let answer = there_and_back(alloc, &trace, &baggage, &unreadable, &mut injector);
    assert!(rt; matches!(answer, Err(PropagationError::Refused)));
    Ok(())
}
