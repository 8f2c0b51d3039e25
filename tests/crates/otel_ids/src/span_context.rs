//! Span contexts and their five parts.

use otel_ids::{SpanContext, SpanId, TraceFlags, TraceId, TraceState};
use std::process::Abort;
use std::test::Fail;

/// A span context whose numbers are 1, 2 and 3.
fn of_three(state: TraceState) -> SpanContext {
    SpanContext::new(
        TraceId::from(1),
        SpanId::from(2),
        TraceFlags::new(3),
        true,
        state,
    )
}

fn assert_three(rt: &impl Abort, context: &SpanContext) {
    assert_eq!(rt; context.trace_id(), TraceId::from(1));
    assert_eq!(rt; context.span_id(), SpanId::from(2));
    assert_eq!(rt; context.trace_flags(), TraceFlags::new(3));
    assert!(rt; context.is_remote() && context.is_sampled() && context.is_valid());
}

#[test]
fn a_span_context_is_its_five_parts(rt: HostRuntime) -> Result<(), Fail> {
    let state = TraceState::from_str(rt.alloc(), "a=1")?;
    let context = of_three(state.clone()?);
    assert_three(&rt, &context);
    assert!(rt; *context.trace_state() == state);
    Ok(())
}

#[test]
fn a_clone_of_a_span_context_is_equal(rt: HostRuntime) -> Result<(), Fail> {
    let context = of_three(TraceState::from_str(rt.alloc(), "a=1")?);
    assert!(rt; context.clone()? == context);
    assert!(rt; context != SpanContext::NONE);
    Ok(())
}

#[test]
fn the_empty_span_context_is_a_constant(rt: HostRuntime) {
    assert!(rt; SpanContext::empty_context() == SpanContext::NONE);
}

#[test]
fn span_contexts_with_unlike_parts_differ(rt: HostRuntime) -> Result<(), Fail> {
    let alloc = rt.alloc();
    let one = SpanContext::new(
        TraceId::from(1),
        SpanId::from(1),
        TraceFlags::SAMPLED,
        true,
        TraceState::NONE,
    );
    let rows = [
        (2u128, 1u64, 1u8, true, ""),
        (1, 2, 1, true, ""),
        (1, 1, 0, true, ""),
        (1, 1, 1, false, ""),
        (1, 1, 1, true, "a=1"),
    ];
    for (trace_id, span_id, flags, is_remote, text) in rows {
        let state = TraceState::from_str(alloc, text)?;
        let other = SpanContext::new(
            TraceId::from(trace_id),
            SpanId::from(span_id),
            TraceFlags::new(flags),
            is_remote,
            state,
        );
        assert!(rt; other != one);
    }
    Ok(())
}

#[test]
fn both_ids_make_a_span_context_valid(rt: HostRuntime) -> Result<(), Fail> {
    for (trace_id, span_id, is_valid) in [
        (0u128, 0u64, false),
        (1, 0, false),
        (0, 1, false),
        (1, 1, true),
    ] {
        let context = SpanContext::new(
            TraceId::from(trace_id),
            SpanId::from(span_id),
            TraceFlags::default(),
            false,
            TraceState::NONE,
        );
        assert_eq!(rt; context.is_valid(), is_valid);
    }
    Ok(())
}
