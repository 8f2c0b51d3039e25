//! The span of the current context.
use opentelemetry::context::{Context, ContextStack};
use opentelemetry::trace::{Spans, mark_span_as_active};
use otel_examples::api::active::end_active;
use std::test::Fail;
use test_support::span;

#[test]
fn the_active_span_is_ended_and_no_other(rt: HostRuntime) -> Result<(), Fail> {
    let alloc = rt.alloc();
    let mut stack = ContextStack::new(alloc)?;
    let mut spans = Spans::new(alloc);
    if Context::new()
        .with_span(alloc, &mut spans, span(alloc, 5))
        .is_err()
    {
        return Err(Fail::from("no room"));
    }
    let (guard, number) = match mark_span_as_active(&mut stack, &mut spans, span(alloc, 6)) {
        Ok(active) => active,
        Err(_) => return Err(Fail::from("no room")),
    };
    end_active(&stack, &mut spans, 7);
    drop(stack.detach(guard));
    assert_eq!(rt; number, 1);
    assert_eq!(rt; spans.get(0).and_then(|span| span.ended()), None);
    assert_eq!(rt; spans.get(1).and_then(|span| span.ended()), Some(7));
    Ok(())
}
