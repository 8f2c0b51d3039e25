//! The greatest position, one below, at and above, with each attach.
use otel_context::Context;
use std::test::Fail;
use test_support::{POSITIONS, assert_attached, filled, name_of};

#[test]
fn a_push_or_an_attach_gets_the_last_position(rt: HostRuntime) -> Result<(), Fail> {
    for (newest, position) in POSITIONS {
        let mut stack = filled(rt.alloc(), *newest)?;
        let guard = stack.attach(Context::new()).expect(&rt, "memory");
        assert_attached(&rt, &mut stack, guard, *newest, *position);
        assert_eq!(rt; stack.push(Context::new())?, *position);
        assert_eq!(rt; stack.pop_id(*position).is_some(), *position != 65535);
        assert_eq!(rt; stack.newest_position(), *newest);
        assert_eq!(rt; name_of(stack.current()), "below");
    }
    Ok(())
}

#[test]
fn a_suppressed_scope_gets_the_last_position(rt: HostRuntime) -> Result<(), Fail> {
    for (newest, position) in POSITIONS {
        let mut stack = filled(rt.alloc(), *newest)?;
        let guard = stack
            .enter_telemetry_suppressed_scope()
            .expect(&rt, "memory");
        let is_suppressed = stack.is_current_telemetry_suppressed();
        assert_attached(&rt, &mut stack, guard, *newest, *position);
        assert_eq!(rt; is_suppressed, *position != 65535);
        assert!(rt; !stack.is_current_telemetry_suppressed());
    }
    Ok(())
}
