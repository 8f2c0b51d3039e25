//! Resources that are read with their spans.
use crate::batches::{cart, root, scope, three};
use opentelemetry::Value;
use opentelemetry::trace::{SpanContext, SpanId, TraceState};
use otel_otlp::{read_resource_spans, read_traces, traces_text};
use otel_sdk::resource::Resource;
use std::test::Fail;

// Three resources, of which two have the same attributes, and two scopes of the first one.
const LINE: &'static str =
    "{\"resourceSpans\":[{\"schemaUrl\":\"u\",\"resource\":{\"attributes\":[{\"key\":\"service.name\",\"value\":{\"stringValue\":\"a\"}},{\"key\":\"n\",\"value\":{\"intValue\":1}},{\"key\":\"service.name\",\"value\":{\"stringValue\":\"b\"}}],\"droppedAttributesCount\":7},\"scopeSpans\":[{\"spans\":[{\"traceId\":\"00000000000000000000000000000007\",\"spanId\":\"0000000000000001\"}]},{\"spans\":[{\"traceId\":\"00000000000000000000000000000007\",\"spanId\":\"0000000000000002\"}]}]},{},{\"resource\":null,\"scopeSpans\":[{\"spans\":[{\"traceId\":\"00000000000000000000000000000007\",\"spanId\":\"0000000000000003\"}]}]}]}";

#[test]
fn resources_are_in_the_order_of_the_line(rt: HostRuntime) -> Result<(), Fail> {
    let alloc = rt.alloc();
    let read = read_resource_spans(alloc, LINE)?;
    assert_eq!(rt; read.len(), 3);
    let first = &read.as_slice()[0];
    assert_eq!(rt; first.resource.len(), 2);
    let keys = ["service.name", "n"];
    for (index, attribute) in first.resource.attributes().enumerate() {
        assert_eq!(rt; attribute.key.as_str(), keys[index]);
    }
    // Of two values under one key, the last one.
    assert!(rt; first.resource.get("service.name") == Some(&Value::from("b")));
    assert!(rt; first.resource.schema_url() == Some("u"));
    assert_eq!(rt; first.spans.len(), 2);
    for other in &read.as_slice()[1..] {
        assert!(rt; other.resource.is_empty());
        assert!(rt; other.resource.schema_url().is_none());
    }
    assert!(rt; read.as_slice()[1].spans.is_empty());
    assert_eq!(rt; read.as_slice()[2].spans.len(), 1);
    Ok(())
}

#[test]
fn spans_without_their_resources_are_the_same(rt: HostRuntime) -> Result<(), Fail> {
    let alloc = rt.alloc();
    let read = read_traces(alloc, LINE)?;
    assert_eq!(rt; read.len(), 3);
    for (index, span) in read.iter().enumerate() {
        assert!(rt; span.span_context.span_id() == SpanId::from(index as u64 + 1));
    }
    Ok(())
}

#[test]
fn the_resource_of_a_batch_is_read_back(rt: HostRuntime) -> Result<(), Fail> {
    let alloc = rt.alloc();
    let batch = three(alloc)?;
    let line = traces_text(alloc, &cart(alloc)?, batch.as_slice())?;
    let read = read_resource_spans(alloc, line.as_str())?;
    assert_eq!(rt; read.len(), 1);
    let wanted = cart(alloc)?;
    let resource = &read.as_slice()[0].resource;
    assert_eq!(rt; resource.len(), wanted.len());
    for attribute in wanted.attributes() {
        assert!(rt; resource.get(attribute.key.as_str()) == Some(&attribute.value));
    }
    assert_eq!(rt; read.as_slice()[0].spans.len(), 3);
    Ok(())
}

#[test]
fn blanks_at_the_end_of_a_trace_state_are_lost(rt: HostRuntime) -> Result<(), Fail> {
    let alloc = rt.alloc();
    let mut span = root(alloc, 5, scope(alloc, "s")?)?;
    let state = TraceState::from_key_value(alloc, &[("a", " 1 "), ("b", "2")])?;
    span.span_context = SpanContext::new(
        span.span_context.trace_id(),
        span.span_context.span_id(),
        span.span_context.trace_flags(),
        true,
        state,
    );
    let resource = Resource::builder_empty(alloc).build();
    let line = traces_text(alloc, &resource, &[span])?;
    let read = read_traces(alloc, line.as_str())?;
    let context = &read.as_slice()[0].span_context;
    assert_eq!(rt; context.trace_state().header(alloc)?.as_str(), "a= 1,b=2");
    assert!(rt; !context.is_remote());
    Ok(())
}
