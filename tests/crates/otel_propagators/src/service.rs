//! The service shown in README.md, with a request of the W3C's example.
use opentelemetry::context::ContextStack;
use opentelemetry::propagation::{Extractor, PropagationError, TextMapPropagator};
use otel_propagators::TraceContextPropagator;
use std::alloc::Global;
use std::collections::HashMap;
use std::test::Fail;

/// Returns the headers to send for the received headers.
pub fn serve(
    alloc: Global,
    received: &dyn Extractor,
) -> Result<HashMap<String, String>, PropagationError> {
    let propagator = TraceContextPropagator::new(alloc)?;
    let mut stack = ContextStack::new(alloc)?;
    let parent = propagator.extract(alloc, &stack, received)?;
    let guard = stack.attach(parent)?;
    let mut headers = HashMap::new(alloc);
    let injected = propagator.inject(&stack, &mut headers);
    stack.detach(guard);
    injected?;
    Ok(headers)
}

#[test]
fn a_request_is_sent_on_with_its_headers(rt: HostRuntime) -> Result<(), Fail> {
    let alloc = rt.alloc();
    let traceparent = "00-0af7651916cd43dd8448eb211c80319c-00f067aa0ba902b7-01";
    let mut received: HashMap<String, String> = HashMap::new(alloc);
    received.insert(
        String::from_str(alloc, "traceparent")?,
        String::from_str(alloc, traceparent)?,
    )?;
    let headers = serve(alloc, &received)?;
    assert!(rt; headers.get("traceparent").map(|it| it.as_str()) == Some(traceparent));
    assert!(rt; headers.get("tracestate").map(|it| it.as_str()) == Some(""));
    assert_eq!(rt; headers.len(), 2);
    Ok(())
}
