//! The calls that processors make on their exporter, each counted.
use opentelemetry::trace::Tracing;
use otel_sdk::error::OTelSdkResult;
use otel_sdk::resource::Resource;
use otel_sdk::trace::{
    BatchConfig, BatchSpanProcessor, Build, Exporter, Exports, Losses, SimpleSpanProcessor,
    SpanData, SpanProcessor, TracingBuilder, WithExporter, WithProcessor,
};
use std::alloc::{AllocError, Global};
use std::default::Default;
use std::rc::Rc;
use std::test::Fail;
use test_support::span_data;

/// An exporter that accepts all batches. It writes down each call: the number of spans of a batch,
/// `f` for a flush, `s` for a shutdown and `r` for a resource.
#[derive(Drop)]
pub struct Noted {
    pub calls: String,
}

impl Noted {
    pub fn new(alloc: Global) -> Noted {
        Noted {
            calls: String::new(alloc),
        }
    }
}

impl Exporter<SpanData> for Noted {
    ghost use Rattle.otel_sdk_base.specs.Export.{any_calls};
    ghost use Rattle.std.specs.Prelude.{[]};

    ghost accepted = { λ _. [] };

    ghost calls = { any_calls };

    fn export(&mut self, batch: &[SpanData]) -> OTelSdkResult {
        Ok(self.calls.push((b'0' + (batch.len() % 10) as u8) as char)?)
    }

    fn force_flush(&mut self) -> OTelSdkResult {
        Ok(self.calls.push('f')?)
    }

    fn shutdown(&mut self) -> OTelSdkResult {
        Ok(self.calls.push('s')?)
    }

    fn set_resource(&mut self, resource: Rc<Resource>) {
        drop(resource);
        drop(self.calls.push('r'));
    }

    fn losses(&self) -> Losses {
        Losses::default()
    }

    fn last_message(&self) -> Option<&str> {
        None
    }
}

/// Hands the sampled spans 1, 2 and 3 to the processor.
fn end_three(alloc: Global, processor: &mut impl SpanProcessor) -> Result<(), AllocError> {
    for number in 1..4 {
        processor.on_end(span_data(alloc, number, 1)?);
    }
    Ok(())
}

#[test]
fn a_batch_processor_calls_its_exporter_once(rt: HostRuntime) -> Result<(), Fail> {
    let alloc = rt.alloc();
    let config = BatchConfig::default();
    let mut processor = BatchSpanProcessor::new(alloc, Noted::new(alloc), config);
    end_three(alloc, &mut processor)?;
    assert_eq!(rt; processor.exporter().calls.as_str(), "");
    assert!(rt; processor.force_flush().is_ok());
    assert_eq!(rt; processor.exporter().calls.as_str(), "3f");
    processor.on_end(span_data(alloc, 4, 1)?);
    let resource = Rc::new(alloc, Resource::builder_empty(alloc).build())?;
    processor.set_resource(&resource)?;
    assert_eq!(rt; processor.exporter().calls.as_str(), "3fr");
    assert!(rt; processor.shutdown().is_ok());
    assert!(rt; processor.shutdown().is_err());
    assert!(rt; processor.force_flush().is_err());
    assert_eq!(rt; processor.exporter().calls.as_str(), "3fr1fs");
    Ok(())
}

#[test]
fn a_simple_processor_flushes_once_after_each_span(rt: HostRuntime) -> Result<(), Fail> {
    let alloc = rt.alloc();
    let mut processor = SimpleSpanProcessor::new(alloc, Noted::new(alloc));
    end_three(alloc, &mut processor)?;
    assert_eq!(rt; processor.exporter().calls.as_str(), "1f1f1f");
    assert!(rt; processor.force_flush().is_ok());
    assert_eq!(rt; processor.exporter().calls.as_str(), "1f1f1ff");
    let resource = Rc::new(alloc, Resource::builder_empty(alloc).build())?;
    processor.set_resource(&resource)?;
    assert!(rt; processor.shutdown().is_ok());
    processor.on_end(span_data(alloc, 4, 1)?);
    assert_eq!(rt; processor.dropped_spans(), 1);
    assert_eq!(rt; processor.exporter().calls.as_str(), "1f1f1ffrfs");
    Ok(())
}

#[test]
fn a_tracing_calls_its_exporter_once(rt: HostRuntime) -> Result<(), Fail> {
    let alloc = rt.alloc();
    let builder = TracingBuilder::new(rt).with_exporter(Noted::new(alloc));
    let mut tracing = builder.build(alloc, "cart")?;
    let serve = tracing.enter("serve")?;
    tracing.exit(serve);
    assert_eq!(rt; tracing.processors().1.exporter().calls.as_str(), "r");
    tracing.flush()?;
    assert_eq!(rt; tracing.processors().1.exporter().calls.as_str(), "r1f");
    tracing.enter("price")?;
    assert_eq!(rt; tracing.shutdown()?, 1);
    assert!(rt; tracing.shutdown().is_err());
    assert!(rt; tracing.flush().is_err());
    assert_eq!(rt; tracing.processors().1.exporter().calls.as_str(), "r1f1fs");
    Ok(())
}

#[test]
fn a_tracing_hands_each_span_to_a_simple_processor(rt: HostRuntime) -> Result<(), Fail> {
    let alloc = rt.alloc();
    let processor = SimpleSpanProcessor::new(alloc, Noted::new(alloc));
    let builder = TracingBuilder::new(rt).with_processor(processor);
    let mut tracing = builder.build(alloc, "cart")?;
    let serve = tracing.enter("serve")?;
    tracing.enter("price")?;
    assert_eq!(rt; tracing.processors().1.exporter().calls.as_str(), "r");
    tracing.exit(serve);
    assert_eq!(rt; tracing.processors().1.exporter().calls.as_str(), "r1f1f");
    assert_eq!(rt; tracing.shutdown()?, 0);
    assert_eq!(rt; tracing.processors().1.exporter().calls.as_str(), "r1f1ffs");
    Ok(())
}
