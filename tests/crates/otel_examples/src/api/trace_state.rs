//! A trace state.
use opentelemetry::trace::TraceStateError;
use otel_examples::api::trace_state;
use std::test::Fail;

#[test]
fn an_entry_goes_in_front_of_a_trace_state(rt: HostRuntime) -> Result<(), Fail> {
    let alloc = rt.alloc();
    let sent = trace_state::with_own_entry(alloc, "rojo=1,acme=0,congo=2", "9")?;
    assert_eq!(rt; sent.as_str(), "acme=9,rojo=1,congo=2");
    let failed = trace_state::with_own_entry(alloc, "rojo", "9");
    assert!(rt; matches!(failed, Err(TraceStateError::List(text)) if text.as_str() == "rojo"));
    Ok(())
}
