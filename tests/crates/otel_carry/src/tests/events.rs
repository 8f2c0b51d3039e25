//! The contexts attached by the lines.
use crate::events::events_of;
use opentelemetry::carry::StackEvent;
use opentelemetry::trace::{SpanContext, TraceState};
use opentelemetry::{SpanId, TraceFlags, TraceId};
use std::test::Fail;

#[test]
fn numbers_the_span_contexts(rt: HostRuntime) -> Result<(), Fail> {
    let events = events_of(rt.alloc(), "attach a\ndetach 0\nattach b v=1\n")?;
    let state = TraceState::from_str(rt.alloc(), "v=1")?;
    let wanted = SpanContext::new(
        TraceId::from(2),
        SpanId::from(2),
        TraceFlags::SAMPLED,
        true,
        state,
    );
    assert_eq!(rt; events.len(), 3);
    for (index, event) in events.iter().enumerate() {
        if let StackEvent::Attach(context) = event {
            assert_eq!(rt; context.has_active_span(), index == 2);
            assert!(rt; index != 2 || *context.span_context() == wanted);
        }
    }
    Ok(())
}
