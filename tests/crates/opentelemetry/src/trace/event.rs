//! Events.
use crate::trace::one_attribute;
use opentelemetry::StringValue;
use opentelemetry::trace::Event;
use std::test::Fail;

#[test]
fn events_are_equal_by_their_parts(rt: HostRuntime) -> Result<(), Fail> {
    let alloc = rt.alloc();
    let plain = Event::with_name(alloc, StringValue::from("e"), 5);
    assert_eq!(rt; plain.timestamp, 5);
    assert_eq!(rt; plain.attributes.len(), 0);
    assert_eq!(rt; plain.dropped_attributes_count, 0);
    assert!(rt; plain == Event::new(StringValue::from("e"), 5, Vec::new(alloc), 0));
    assert!(rt; plain != Event::new(StringValue::from("f"), 5, Vec::new(alloc), 0));
    assert!(rt; plain != Event::new(StringValue::from("e"), 6, Vec::new(alloc), 0));
    assert!(rt; plain != Event::new(StringValue::from("e"), 5, Vec::new(alloc), 1));
    let full = Event::new(StringValue::from("e"), 5, one_attribute(alloc, "k", 1)?, 0);
    assert!(rt; plain != full);
    assert!(rt; full != Event::new(StringValue::from("e"), 5, one_attribute(alloc, "k", 2)?, 0));
    assert!(rt; full.clone()? == full);
    Ok(())
}
