//! A log bridge.
use opentelemetry::context::ContextStack;
use opentelemetry::logs::NoopLogger;
use otel_examples::api::log_bridge;
use std::test::Fail;

#[test]
fn a_message_is_logged(rt: HostRuntime) -> Result<(), Fail> {
    let alloc = rt.alloc();
    let stack = ContextStack::new(alloc)?;
    let message = String::from_str(alloc, "started")?;
    log_bridge::log(alloc, &NoopLogger, &stack, message)?;
    Ok(())
}
