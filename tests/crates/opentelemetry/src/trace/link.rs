//! Links.
use crate::trace::{one_attribute, span_context};
use opentelemetry::trace::Link;
use std::test::Fail;

#[test]
fn links_are_equal_by_their_parts(rt: HostRuntime) -> Result<(), Fail> {
    let alloc = rt.alloc();
    let plain = Link::with_context(alloc, span_context(1, 2));
    assert!(rt; plain.span_context == span_context(1, 2));
    assert_eq!(rt; plain.attributes.len(), 0);
    assert_eq!(rt; plain.dropped_attributes_count, 0);
    assert!(rt; plain != Link::with_context(alloc, span_context(1, 3)));
    assert!(rt; plain != Link::new(span_context(1, 2), Vec::new(alloc), 1));
    let full = Link::new(span_context(1, 2), one_attribute(alloc, "k", 1)?, 7);
    assert!(rt; plain != full);
    assert!(rt; full.clone()? == full);
    Ok(())
}
