//! Spans that are marked as active.
use otel_context::{
    Context, ContextStack, HasCurrent, Span, SpanCause, Spans, get_active_span, mark_span_as_active,
};
use otel_ids::SpanId;
use std::test::Fail;
use test_support::{POSITIONS, assert_attached, filled, span};

#[test]
fn the_marked_span_is_the_active_one_until_its_guard_is_spent(rt: HostRuntime) -> Result<(), Fail> {
    let mut stack = ContextStack::new(rt.alloc())?;
    let mut spans = Spans::new(rt.alloc());
    let (outer, first) = match mark_span_as_active(&mut stack, &mut spans, span(rt.alloc(), 5)) {
        Ok(active) => active,
        Err(refused) => {
            drop(refused);
            panic!(&rt; "no room")
        }
    };
    let (inner, second) = match mark_span_as_active(&mut stack, &mut spans, span(rt.alloc(), 6)) {
        Ok(active) => active,
        Err(refused) => {
            drop(refused);
            drop(stack.detach(outer));
            panic!(&rt; "no room")
        }
    };
    get_active_span(&stack, &mut spans, |span| span.end(1));
    let positions = (outer.position(), inner.position());
    drop(stack.detach(inner));
    let id = get_active_span(&stack, &mut spans, |span| span.span_context().span_id());
    drop(stack.detach(outer));
    assert_eq!(rt; positions, (1, 2));
    assert_eq!(rt; (first, second), (0, 1));
    assert_eq!(rt; id, SpanId::from(5));
    assert_eq!(rt; spans.get(0).and_then(|span| span.ended()), None);
    assert_eq!(rt; spans.get(1).and_then(|span| span.ended()), Some(1));
    assert!(rt; !get_active_span(&stack, &mut spans, |span| span.is_recording()));
    Ok(())
}

#[test]
fn without_a_number_nothing_is_marked(rt: HostRuntime) -> Result<(), Fail> {
    let mut stack = ContextStack::new(rt.alloc())?;
    let mut spans = Spans::starting_at(rt.alloc(), u64::MAX);
    match mark_span_as_active(&mut stack, &mut spans, span(rt.alloc(), 5)) {
        Ok((guard, _)) => {
            drop(stack.detach(guard));
            panic!(&rt; "a number was left")
        }
        Err(refused) => {
            assert!(rt; matches!(&refused.cause, SpanCause::NumbersUsedUp));
            assert_eq!(rt; refused.span.span_context().span_id(), SpanId::from(5));
        }
    }
    assert_eq!(rt; stack.newest_position(), 0);
    assert!(rt; spans.is_empty());
    assert!(rt;
        stack
            .current_with_span(&mut spans, span(rt.alloc(), 6))
            .is_err()
    );
    Ok(())
}

#[test]
fn at_the_last_position_the_span_is_in_the_table(rt: HostRuntime) -> Result<(), Fail> {
    let mut stack = ContextStack::new(rt.alloc())?;
    let mut spans = Spans::new(rt.alloc());
    for _ in 0..65534 {
        stack.push(Context::new())?;
    }
    match mark_span_as_active(&mut stack, &mut spans, span(rt.alloc(), 5)) {
        Ok((guard, number)) => {
            let attached = guard.is_attached();
            let removed = stack.detach(guard).is_some();
            assert!(rt; !attached && !removed);
            assert_eq!(rt; number, 0);
        }
        Err(refused) => {
            drop(refused);
            panic!(&rt; "no room")
        }
    }
    assert_eq!(rt; spans.len(), 1);
    assert_eq!(rt; stack.newest_position(), 65534);
    assert!(rt; !stack.current().has_active_span());
    Ok(())
}

#[test]
fn a_marked_span_gets_the_last_position(rt: HostRuntime) -> Result<(), Fail> {
    for (newest, position) in POSITIONS {
        let mut stack = filled(rt.alloc(), *newest)?;
        let mut spans = Spans::new(rt.alloc());
        match mark_span_as_active(&mut stack, &mut spans, span(rt.alloc(), 5)) {
            Ok((guard, number)) => {
                let is_active = stack.current().has_active_span();
                assert_attached(&rt, &mut stack, guard, *newest, *position);
                assert_eq!(rt; is_active, *position != 65535);
                assert_eq!(rt; number, 0);
            }
            Err(refused) => {
                drop(refused);
                panic!(&rt; "no room")
            }
        }
        assert_eq!(rt; spans.len(), 1);
    }
    Ok(())
}
