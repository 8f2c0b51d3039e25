//! Builders of spans.
use crate::trace::{one_attribute, span_context};
use opentelemetry::StringValue;
use opentelemetry::trace::{Event, Link, SpanBuilder, SpanKind};
use std::test::Fail;

/// The ids of links, and whether a builder keeps the link.
const LINKS: &[((u128, u64), bool)] = &[((1, 1), true), ((1, 0), false), ((2, 3), true)];

#[test]
fn a_builder_keeps_the_valid_links_in_order(rt: HostRuntime) -> Result<(), Fail> {
    let alloc = rt.alloc();
    let mut links = Vec::new(alloc);
    let mut valid = Vec::new(alloc);
    for ((trace_id, span_id), is_kept) in LINKS {
        links.push(Link::with_context(alloc, span_context(*trace_id, *span_id)))?;
        if *is_kept {
            valid.push(Link::with_context(alloc, span_context(*trace_id, *span_id)))?;
        }
    }
    let builder = SpanBuilder::from_name(StringValue::from("n")).with_links(links);
    assert!(rt; builder.links == Some(valid));
    Ok(())
}

#[test]
fn each_part_of_a_builder_is_set_last(rt: HostRuntime) -> Result<(), Fail> {
    let alloc = rt.alloc();
    let mut events = Vec::new(alloc);
    events.push(Event::with_name(alloc, StringValue::from("e"), 1))?;
    let builder = SpanBuilder::from_name(StringValue::from("n"))
        .with_kind(SpanKind::Server)
        .with_kind(SpanKind::Client)
        .with_start_time(1)
        .with_start_time(2)
        .with_attributes(one_attribute(alloc, "a", 1)?)
        .with_attributes(one_attribute(alloc, "b", 2)?)
        .with_events(Vec::new(alloc))
        .with_events(events);
    let copy = builder.clone()?;
    for it in [builder, copy] {
        assert_eq!(rt; it.name.as_str(), "n");
        assert!(rt; it.span_kind == Some(SpanKind::Client));
        assert!(rt; it.start_time == Some(2));
        assert!(rt; it.attributes == Some(one_attribute(alloc, "b", 2)?));
        assert_eq!(rt; it.events.map(|events| events.len()), Some(1));
        assert!(rt; it.links == None);
    }
    Ok(())
}

#[test]
fn the_default_builder_has_the_empty_name(rt: HostRuntime) -> Result<(), Fail> {
    let builder = SpanBuilder::default();
    assert_eq!(rt; builder.name.as_str(), "");
    assert!(rt; builder.span_kind == None);
    assert!(rt; builder.start_time == None);
    Ok(())
}
