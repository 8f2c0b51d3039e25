//! The batches that an exporter keeps in memory.
use opentelemetry::trace::SpanId;
use otel_sdk::error::OTelSdkError;
use otel_sdk::trace::{Exporter, FinishedSpans, InMemorySpanExporter};
use std::test::Fail;
use test_support::span_data;

#[test]
fn accepted_spans_are_kept_in_order(rt: HostRuntime) -> Result<(), Fail> {
    let alloc = rt.alloc();
    let mut exporter = InMemorySpanExporter::new(alloc);
    assert!(rt;
        exporter
            .export(&[span_data(alloc, 1, 1)?, span_data(alloc, 2, 1)?])
            .is_ok()
    );
    assert!(rt; exporter.export(&[span_data(alloc, 3, 1)?]).is_ok());
    assert!(rt; exporter.force_flush().is_ok());
    let spans = exporter.get_finished_spans()?;
    assert_eq!(rt; spans.len(), 3);
    for (place, span) in spans.iter().enumerate() {
        assert_eq!(rt; span.span_context.span_id(), SpanId::from(place as u64 + 1));
        assert_eq!(rt; span.name.as_str(), "work");
        assert_eq!(rt; span.instrumentation_scope.name(), "tests");
    }
    exporter.reset();
    assert!(rt; exporter.get_finished_spans()?.is_empty());
    Ok(())
}

#[test]
fn a_shutdown_exporter_refuses(rt: HostRuntime) -> Result<(), Fail> {
    let alloc = rt.alloc();
    let mut exporter = InMemorySpanExporter::new(alloc);
    assert!(rt; exporter.export(&[span_data(alloc, 1, 1)?]).is_ok());
    assert!(rt; exporter.shutdown().is_ok());
    assert!(rt; exporter.get_finished_spans()?.is_empty());
    let answer = exporter.export(&[span_data(alloc, 2, 1)?]);
    assert!(rt; matches!(answer, Err(OTelSdkError::AlreadyShutdown)));
    assert!(rt; exporter.get_finished_spans()?.is_empty());
    Ok(())
}
