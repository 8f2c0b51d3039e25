//! The code that the documentation shows, run.
use opentelemetry::trace::Tracing;
use otel_sdk::error::OTelSdkError;
use otel_sdk::trace::{
    BatchConfig, BatchSpanProcessor, Build, Exports, FinishedSpans, InMemorySpanExporter,
    SimpleSpanProcessor, TracingBuilder, WithExporter, WithProcessor,
};
use std::test::Fail;

fn serve(tracing: &mut impl Exports) -> Result<(), OTelSdkError> {
    let serve = tracing.enter("serve")?;
    tracing.exit(serve);
    tracing.shutdown()?;
    Ok(())
}

#[test]
fn a_value_with_an_exporter(rt: HostRuntime) -> Result<(), Fail> {
    let alloc = rt.alloc();
    let exporter = InMemorySpanExporter::new(alloc);
    let builder = TracingBuilder::new(rt).with_exporter(exporter);
    let mut tracing = builder.build(alloc, "cart")?;
    serve(&mut tracing)?;
    assert!(rt; tracing.flush().is_err());
    Ok(())
}

#[test]
fn a_value_with_a_batch_processor(rt: HostRuntime) -> Result<(), Fail> {
    let alloc = rt.alloc();
    let exporter = InMemorySpanExporter::new(alloc);
    let processor = BatchSpanProcessor::new(alloc, exporter, BatchConfig::default());
    let builder = TracingBuilder::new(rt).with_processor(processor);
    let mut tracing = builder.build(alloc, "cart")?;
    serve(&mut tracing)?;
    assert!(rt; tracing.flush().is_err());
    Ok(())
}

#[test]
fn a_value_with_a_simple_processor(rt: HostRuntime) -> Result<(), Fail> {
    let alloc = rt.alloc();
    let exporter = InMemorySpanExporter::new(alloc);
    let processor = SimpleSpanProcessor::new(alloc, exporter);
    let builder = TracingBuilder::new(rt).with_processor(processor);
    let mut tracing = builder.build(alloc, "cart")?;
    let price = tracing.enter("price")?;
    tracing.exit(price);
    let processor = &tracing.processors().1;
    let spans = processor.exporter().get_finished_spans()?;
    assert_eq!(rt; spans.len(), 1);
    assert_eq!(rt; spans[0].name.as_str(), "price");
    Ok(())
}
