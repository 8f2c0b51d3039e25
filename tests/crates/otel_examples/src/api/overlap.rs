//! Two attachments. The older one is detached first.
use opentelemetry::Key;
use opentelemetry::context::{Context, ContextStack};
use opentelemetry::logs::AnyValue;
use otel_examples::api::overlap::current_between;
use std::test::Fail;

#[test]
fn the_newer_context_is_current_once_the_older_is_removed(rt: HostRuntime) -> Result<(), Fail> {
    let alloc = rt.alloc();
    let mut stack = ContextStack::new(alloc)?;
    let older = Context::new().with_value(alloc, Key::from("k"), AnyValue::from(1))?;
    let newer = Context::new().with_value(alloc, Key::from("k"), AnyValue::from(2))?;
    let seen = current_between(&mut stack, older, newer)?;
    assert!(rt; seen.get("k") == Some(&AnyValue::from(2)));
    assert_eq!(rt; stack.newest_position(), 0);
    Ok(())
}
