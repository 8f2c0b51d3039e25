//! Spans that reach an exporter.
use opentelemetry::trace::{TraceId, TracerProvider, Tracing};
use opentelemetry::{Context, Key, KeyValue, StringValue, Value};
use otel_examples::sdk::traced::{export, price};
use otel_sdk::trace::{
    Build, CountedIdGenerator, Exports, FinishedSpans, InMemorySpanExporter, ManualClock, Sampler,
    SdkTracer, SdkTracerProvider, SimpleSpanProcessor, TracerPipeline, TracingBuilder,
    WithExporter,
};
use std::alloc::AllocError;
use std::test::Fail;

type Pipeline = TracerPipeline<Sampler, CountedIdGenerator, ManualClock>;

/// A tracer with this sampler. The clock shows 5.
fn tracer(rt: HostRuntime, sampler: Sampler) -> Result<SdkTracer<Pipeline>, AllocError> {
    let alloc = rt.alloc();
    let provider = SdkTracerProvider::builder(rt)
        .with_sampler(sampler)
        .with_id_generator(CountedIdGenerator::new())
        .with_clock(ManualClock::new(5))
        .build(alloc)?;
    provider.tracer(alloc, StringValue::from("cart"))
}

#[test]
fn a_sampled_span_is_exported_at_its_end(rt: HostRuntime) -> Result<(), Fail> {
    let alloc = rt.alloc();
    let tracer = tracer(rt, Sampler::AlwaysOn)?;
    let mut processor = SimpleSpanProcessor::new(alloc, InMemorySpanExporter::new(alloc));
    price(alloc, &tracer, &mut processor, &Context::new(), 7, 9)?;
    let spans = processor.exporter().get_finished_spans()?;
    assert_eq!(rt; spans.len(), 1);
    let span = spans.first().expect(&rt, "a span");
    assert_eq!(rt; span.name.as_str(), "price");
    assert_eq!(rt; span.start_time, 5);
    assert_eq!(rt; span.end_time, 9);
    let item = KeyValue::new(Key::from("item"), Value::I64(7));
    assert!(rt; span.attributes.as_slice() == [item].as_slice());
    Ok(())
}

#[test]
fn an_unsampled_span_is_not(rt: HostRuntime) -> Result<(), Fail> {
    let alloc = rt.alloc();
    let tracer = tracer(rt, Sampler::AlwaysOff)?;
    let mut processor = SimpleSpanProcessor::new(alloc, InMemorySpanExporter::new(alloc));
    price(alloc, &tracer, &mut processor, &Context::new(), 7, 9)?;
    assert!(rt; processor.exporter().get_finished_spans()?.is_empty());
    Ok(())
}

#[test]
fn ended_spans_are_exported_and_others_stay(rt: HostRuntime) -> Result<(), Fail> {
    let alloc = rt.alloc();
    let mut tracing = TracingBuilder::new(rt)
        .counted(1)
        .with_exporter(InMemorySpanExporter::new(alloc))
        .build(alloc, "cart")?;
    tracing.start("serve")?;
    let price = tracing.start("price")?;
    tracing.end(&price);
    export(&mut tracing)?;
    let spans = tracing.processors().1.exporter().get_finished_spans()?;
    assert_eq!(rt; spans.len(), 1);
    assert_eq!(rt; spans[0].name.as_str(), "price");
    assert_eq!(rt; spans[0].span_context.trace_id(), TraceId::from(2));
    assert_eq!(rt; tracing.open_spans(), 1);
    Ok(())
}
