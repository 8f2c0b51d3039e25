//! Batches that are refused, and batches without spans.
use crate::pictures::span;
use otel_sdk::error::OTelSdkError;
use otel_sdk::trace::Exporter;
use otel_waterfall::WaterfallExporter;
use std::io::{self, ErrorKind, Write};
use std::test::Fail;

/// A writer that writes one byte in a call and `limit` bytes in all. Every other call is
/// interrupted.
#[derive(Drop)]
struct Narrow {
    limit: usize,
    written: usize,
    is_interrupted: bool,
}

impl Write for Narrow {
    fn write(&mut self, buf: &[u8]) -> io::Result<usize> {
        self.is_interrupted = !self.is_interrupted;
        if self.is_interrupted {
            return Err(io::Error::from(ErrorKind::Interrupted));
        }
        let count = buf.len().min(self.limit).min(1);
        self.limit -= count;
        self.written = self.written.saturating_add(count);
        Ok(count)
    }

    fn flush(&mut self) -> io::Result<()> {
        Ok(())
    }
}

#[test]
fn a_writer_that_is_full_refuses(rt: HostRuntime) -> Result<(), Fail> {
    let alloc = rt.alloc();
    let batch = [span(alloc, 7, (1, 0), "a", 5, 5)?];
    for (limit, is_accepted) in [(0, false), (10, false), (78, false), (79, true)] {
        let narrow = Narrow {
            limit,
            written: 0,
            is_interrupted: false,
        };
        let mut exporter = WaterfallExporter::new(alloc, narrow)
            .with_ascii()
            .with_width(40);
        let answer = exporter.export(&batch);
        assert_eq!(rt; exporter.output().written, limit);
        if is_accepted {
            assert!(rt; answer.is_ok());
        } else {
            assert!(rt; matches!(answer, Err(OTelSdkError::InternalFailure(_))));
        }
    }
    Ok(())
}

#[test]
fn no_spans_draw_nothing(rt: HostRuntime) -> Result<(), Fail> {
    let alloc = rt.alloc();
    let mut exporter = WaterfallExporter::new(alloc, Vec::new(alloc));
    assert!(rt; exporter.export(&[]).is_ok());
    assert!(rt; exporter.force_flush().is_ok());
    assert!(rt; exporter.output().is_empty());
    Ok(())
}

#[test]
fn a_shutdown_exporter_refuses(rt: HostRuntime) -> Result<(), Fail> {
    let alloc = rt.alloc();
    let mut exporter = WaterfallExporter::new(alloc, Vec::new(alloc));
    assert!(rt; exporter.shutdown().is_ok());
    let batch = [span(alloc, 7, (1, 0), "a", 5, 5)?];
    let answer = exporter.export(&batch);
    assert!(rt; matches!(answer, Err(OTelSdkError::AlreadyShutdown)));
    assert!(rt; exporter.output().is_empty());
    Ok(())
}
