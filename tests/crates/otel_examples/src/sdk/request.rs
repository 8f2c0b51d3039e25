//! Requests with the headers in the W3C's examples.
use http_header::{HeaderMap, HeaderName, HeaderValue};
use opentelemetry::Context;
use opentelemetry::trace::TraceId;
use otel_examples::sdk::request::{received, sent};
use otel_propagators::TraceContextPropagator;
use std::test::Fail;

const PARENT: &str = "00-0af7651916cd43dd8448eb211c80319c-b7ad6b7169203331-01";

const TRACE: u128 = 0x0af7651916cd43dd8448eb211c80319c;

#[test]
fn a_context_comes_in_and_goes_out(rt: HostRuntime) -> Result<(), Fail> {
    let alloc = rt.alloc();
    let propagator = TraceContextPropagator::new(alloc)?;
    let mut headers = HeaderMap::new(alloc);
    let name = HeaderName::from_bytes(alloc, b"TraceParent")?;
    drop(headers.insert(
        name,
        HeaderValue::from_string(String::from_str(alloc, PARENT)?)?,
    )?);
    let context = received(alloc, &propagator, &headers)?;
    assert!(rt; context.span_context().is_remote());
    assert_eq!(rt; context.span_context().trace_id(), TraceId::from(TRACE));
    let headers = sent(&propagator, &context, HeaderMap::new(alloc))?;
    let name = HeaderName::from_bytes(alloc, b"traceparent")?;
    let value = headers.get(&name).expect(&rt, "a header");
    assert_eq!(rt; value.as_bytes(), PARENT.as_bytes());
    Ok(())
}

#[test]
fn without_headers_the_context_is_empty(rt: HostRuntime) -> Result<(), Fail> {
    let alloc = rt.alloc();
    let propagator = TraceContextPropagator::new(alloc)?;
    let context = received(alloc, &propagator, &HeaderMap::new(alloc))?;
    assert!(rt; !context.has_active_span());
    let headers = sent(&propagator, &Context::new(), HeaderMap::new(alloc))?;
    assert!(rt; headers.is_empty());
    Ok(())
}
