//! The names of the headers of two joined composites.
use otel_examples::api::header_names::gateway_headers;
use std::test::Fail;

#[test]
fn a_gateway_lets_each_header_through_once(rt: HostRuntime) -> Result<(), Fail> {
    let names = gateway_headers(rt.alloc())?;
    let mut names = names.iter();
    for wanted in ["traceparent", "tracestate", "baggage", "x-request-id"] {
        assert!(rt; names.next().is_some_and(|name| name.as_str() == wanted));
    }
    assert!(rt; names.next().is_none());
    Ok(())
}
