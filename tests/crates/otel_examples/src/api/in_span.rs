//! Work in spans.
use opentelemetry::context::ContextStack;
use opentelemetry::trace::Spans;
use opentelemetry::trace::noop::NoopTracer;
use otel_examples::api::in_span::handle;
use std::test::Fail;

#[test]
fn a_request_and_its_query_have_spans(rt: HostRuntime) -> Result<(), Fail> {
    let alloc = rt.alloc();
    let mut stack = ContextStack::new(alloc)?;
    let mut spans = Spans::new(alloc);
    match handle(alloc, &NoopTracer::new(), &mut stack, &mut spans) {
        Ok((child, parent)) => {
            assert!(rt; child == Some(1));
            assert_eq!(rt; parent, 0);
        }
        Err(_) => assert!(rt; false),
    }
    assert_eq!(rt; spans.len(), 2);
    assert_eq!(rt; stack.newest_position(), 0);
    Ok(())
}
