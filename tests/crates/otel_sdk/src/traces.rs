//! Code that is generic over what traces it.
use crate::env::config;
use opentelemetry::trace::{
    NotEntered, SpanBuilder, SpanContext, SpanId, Status, TraceFlags, TraceId, TraceState, Tracing,
};
use opentelemetry::{Context, Key, KeyValue, StringValue, Value};
use otel_sdk::trace::{
    Build, Exports, FinishedSpans, InMemorySpanExporter, SpanProcessor, TracingBuilder,
    WithExporter,
};
use std::alloc::Global;
use std::collections::HashMap;
use std::test::Fail;
use test_support::map_of;

/// A library's span of its own, by the API alone.
fn price(tracing: &mut impl Tracing) -> Result<(), NotEntered> {
    let price = tracing.enter("price")?;
    tracing.exit(price);
    Ok(())
}

/// Serves a request with each call. Returns the `traceparent` that is sent on, and the number of
/// spans that have ended before the flush.
fn serve(alloc: Global, tracing: &mut impl Exports) -> Result<(Option<String>, usize), Fail> {
    let propagator = config(alloc, &[])?.propagator(alloc)?;
    let caller = "00-80f198ee56343ba864fe8b2a57d3eff7-e457b5a2e4d86bd1-01";
    let guard = tracing.receive(&propagator, &map_of(alloc, &[("traceparent", caller)])?)?;
    let serve = tracing.enter_with(SpanBuilder::from_name(StringValue::from("serve")))?;
    tracing.set_attribute(KeyValue::new(Key::from("k"), Value::I64(1)))?;
    tracing.add_event(StringValue::from("e"), Vec::new(alloc))?;
    let (trace_id, span_id) = (TraceId::from(7), SpanId::from(8));
    let flags = TraceFlags::default();
    let other = SpanContext::new(trace_id, span_id, flags, false, TraceState::NONE);
    tracing.add_link(other, Vec::new(alloc))?;
    tracing.record_error(&402)?;
    tracing.set_status(Status::Ok)?;
    tracing.update_name(StringValue::from("renamed"))?;
    let mut headers: HashMap<String, String> = HashMap::new(alloc);
    tracing.send(&propagator, &mut headers)?;
    let apart = tracing.attach(Context::new())?;
    price(tracing)?;
    tracing.detach(apart);
    tracing.exit(serve);
    tracing.detach(guard);
    let ended = tracing.processors().queued_spans();
    tracing.flush()?;
    if tracing.context().has_active_span() {
        return Err(Fail::from("a context is still attached"));
    }
    Ok((headers.remove("traceparent"), ended))
}

#[test]
fn generic_code_traces_as_a_tracing_does(rt: HostRuntime) -> Result<(), Fail> {
    let alloc = rt.alloc();
    let mut tracing = TracingBuilder::new(rt)
        .counted(1)
        .with_exporter(InMemorySpanExporter::new(alloc))
        .build(alloc, "cart")?;
    let (sent, ended) = serve(alloc, &mut tracing)?;
    let text = "00-80f198ee56343ba864fe8b2a57d3eff7-0000000000000001-01";
    assert!(rt; sent.as_ref().map(|sent| sent.as_str()) == Some(text));
    assert_eq!(rt; ended, 2);
    let spans = tracing.processors().1.exporter().get_finished_spans()?;
    assert_eq!(rt; spans.len(), 2);
    let (price, serve) = (&spans[0], &spans[1]);
    assert_eq!(rt;
        (price.name.as_str(), serve.name.as_str()),
        ("price", "renamed")
    );
    assert!(rt; price.span_context.trace_id() == TraceId::from(1));
    assert!(rt;
        serve.parent_span_id.to_bytes() == [0xe4, 0x57, 0xb5, 0xa2, 0xe4, 0xd8, 0x6b, 0xd1]
    );
    assert_eq!(rt;
        (
            serve.attributes.len(),
            serve.events.events.len(),
            serve.links.links.len()
        ),
        (1, 2, 1)
    );
    assert!(rt; serve.status == Status::Ok);
    Ok(())
}
