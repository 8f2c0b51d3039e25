//! Work under a context of its own.
use opentelemetry::Key;
use opentelemetry::context::{Context, ContextStack};
use opentelemetry::logs::AnyValue;
use otel_examples::api::scope::{AmountError, amount_under};
use std::alloc::{AllocError, Global};
use std::test::Fail;

/// A context with this entry.
fn with_entry(alloc: Global, key: &'static str, value: AnyValue) -> Result<Context, AllocError> {
    Context::new().with_value(alloc, Key::from(key), value)
}

#[test]
fn an_amount_is_read_under_its_context_alone(rt: HostRuntime) -> Result<(), Fail> {
    let alloc = rt.alloc();
    let mut stack = ContextStack::new(alloc)?;
    let context = with_entry(alloc, "amount", AnyValue::from(12))?;
    assert_eq!(rt; amount_under(&mut stack, context)?, 12);
    assert_eq!(rt; stack.newest_position(), 0);
    let failed = amount_under(&mut stack, Context::new());
    assert!(rt; matches!(failed, Err(AmountError::Missing)));
    assert_eq!(rt; stack.newest_position(), 0);
    Ok(())
}

#[test]
fn an_error_tells_its_cause(rt: HostRuntime) -> Result<(), Fail> {
    let missing = format!(in rt.alloc(); "{}", AmountError::Missing)?;
    assert_eq!(rt; missing.as_str(), "no amount");
    let memory = format!(in rt.alloc(); "{}", AmountError::from(AllocError))?;
    assert_eq!(rt; memory.as_str(), "no memory");
    Ok(())
}
