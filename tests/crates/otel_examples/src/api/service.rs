//! A service that extracts, starts a span and injects.
use crate::api::headers::{headers, holds};
use opentelemetry::context::ContextStack;
use opentelemetry::propagation::{Extractor, TextMapPropagator};
use opentelemetry::trace::Spans;
use opentelemetry::trace::noop::NoopTracer;
use otel_examples::api::request_id::RequestId;
use otel_examples::api::service::forward;
use std::collections::HashMap;
use std::test::Fail;
use test_support::map_of;

#[test]
fn a_request_is_forwarded_with_its_id(rt: HostRuntime) -> Result<(), Fail> {
    let alloc = rt.alloc();
    let stack = ContextStack::new(alloc)?;
    let mut spans = Spans::new(alloc);
    let propagator = RequestId::new(alloc)?;
    let received = map_of(alloc, &[("x-request-id", "r-7")])?;
    let mut sent = HashMap::new(alloc);
    let tracer = NoopTracer::new();
    match forward(
        alloc,
        &tracer,
        &propagator,
        &stack,
        &mut spans,
        &received,
        &mut sent,
    ) {
        Ok(number) => assert_eq!(rt; number, 0),
        Err(_) => assert!(rt; false),
    }
    assert!(rt; Extractor::get(&sent, alloc, "X-Request-Id")? == Some("r-7"));
    assert_eq!(rt; spans.len(), 1);
    for name in propagator.fields() {
        assert_eq!(rt; name, "x-request-id");
    }
    Ok(())
}

#[test]
fn a_request_goes_on_from_headers_to_headers(rt: HostRuntime) -> Result<(), Fail> {
    let alloc = rt.alloc();
    let stack = ContextStack::new(alloc)?;
    let mut spans = Spans::new(alloc);
    let propagator = RequestId::new(alloc)?;
    let received = headers(alloc, &[("host", "example.org"), ("x-request-id", "r-7")])?;
    let mut sent = headers(alloc, &[("accept", "*/*")])?;
    let tracer = NoopTracer::new();
    match forward(
        alloc,
        &tracer,
        &propagator,
        &stack,
        &mut spans,
        &received,
        &mut sent,
    ) {
        Ok(number) => assert_eq!(rt; number, 0),
        Err(_) => assert!(rt; false),
    }
    assert!(rt; holds(&sent, &[("accept", "*/*"), ("x-request-id", "r-7")]));
    Ok(())
}
