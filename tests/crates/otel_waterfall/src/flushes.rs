//! Flushes of the writer, which no clause can count.
use crate::pictures::span;
use otel_sdk::error::{OTelSdkError, OTelSdkResult};
use otel_sdk::trace::Exporter;
use otel_waterfall::WaterfallExporter;
use std::io::{self, BufWriter, ErrorKind, Write};
use std::test::Fail;

/// A writer that takes all bytes. It counts its flushes, and the first `failures` of them fail.
#[derive(Drop)]
struct Counting {
    flushes: usize,
    failures: usize,
}

impl Write for Counting {
    fn write(&mut self, buf: &[u8]) -> io::Result<usize> {
        Ok(buf.len())
    }

    fn flush(&mut self) -> io::Result<()> {
        self.flushes = self.flushes.saturating_add(1);
        if self.flushes <= self.failures {
            return Err(ErrorKind::Other.into());
        }
        Ok(())
    }
}

/// A full disk.
#[derive(Drop)]
struct Full;

impl Write for Full {
    fn write(&mut self, _buf: &[u8]) -> io::Result<usize> {
        Err(io::Error::from_raw_os_error(28))
    }

    fn flush(&mut self) -> io::Result<()> {
        Ok(())
    }
}

/// Returns `true` if it is the error of a writer that failed, with ample memory.
fn says_that_the_writer_failed(answer: &OTelSdkResult) -> bool {
    match answer {
        Err(OTelSdkError::InternalFailure(text)) => text.as_str() == "the writer failed",
        _ => false,
    }
}

#[test]
fn each_call_flushes_once(rt: HostRuntime) -> Result<(), Fail> {
    let alloc = rt.alloc();
    let writer = Counting {
        flushes: 0,
        failures: 0,
    };
    let mut exporter = WaterfallExporter::new(alloc, writer);
    let batch = [span(alloc, 7, (1, 0), "a", 5, 5)?];
    assert!(rt; exporter.export(&batch).is_ok());
    assert!(rt; exporter.export(&[]).is_ok());
    assert_eq!(rt; exporter.output().flushes, 0);
    assert!(rt; exporter.force_flush().is_ok());
    assert_eq!(rt; exporter.output().flushes, 1);
    assert!(rt; exporter.shutdown().is_ok());
    assert_eq!(rt; exporter.output().flushes, 2);
    let answer = exporter.force_flush();
    assert!(rt; matches!(answer, Err(OTelSdkError::AlreadyShutdown)));
    let answer = exporter.shutdown();
    assert!(rt; matches!(answer, Err(OTelSdkError::AlreadyShutdown)));
    assert_eq!(rt; exporter.output().flushes, 2);
    Ok(())
}

#[test]
fn a_failed_flush_is_returned(rt: HostRuntime) -> Result<(), Fail> {
    let alloc = rt.alloc();
    let writer = Counting {
        flushes: 0,
        failures: 2,
    };
    let mut exporter = WaterfallExporter::new(alloc, writer);
    let answer = exporter.force_flush();
    assert!(rt; says_that_the_writer_failed(&answer));
    let answer = exporter.shutdown();
    assert!(rt; says_that_the_writer_failed(&answer));
    let batch = [span(alloc, 7, (1, 0), "a", 5, 5)?];
    let answer = exporter.export(&batch);
    assert!(rt; matches!(answer, Err(OTelSdkError::AlreadyShutdown)));
    Ok(())
}

#[test]
fn a_failed_flush_is_not_tried_again(rt: HostRuntime) -> Result<(), Fail> {
    let alloc = rt.alloc();
    for shuts_down in [false, true] {
        let writer = Counting {
            flushes: 0,
            failures: 1,
        };
        let mut exporter = WaterfallExporter::new(alloc, writer);
        let answer = if shuts_down {
            exporter.shutdown()
        } else {
            exporter.force_flush()
        };
        assert!(rt; says_that_the_writer_failed(&answer));
        assert_eq!(rt; exporter.output().flushes, 1);
    }
    Ok(())
}

#[test]
fn a_full_disk_behind_a_buffer(rt: HostRuntime) -> Result<(), Fail> {
    let alloc = rt.alloc();
    let batch = [span(alloc, 7, (1, 0), "a", 5, 5)?];
    let answer = WaterfallExporter::new(alloc, Full).export(&batch);
    let Err(OTelSdkError::Io(error)) = answer else {
        return Err(Fail::from("another answer"));
    };
    let text = format!(in alloc; "{}", OTelSdkError::Io(error))?;
    assert_eq!(rt; text.as_str(), "No space left on device (os error 28)");
    let mut exporter = WaterfallExporter::new(alloc, BufWriter::new(alloc, Full)?);
    assert!(rt; exporter.export(&batch).is_ok());
    let answer = exporter.force_flush();
    assert!(rt; matches!(answer, Err(OTelSdkError::InternalFailure(_))));
    let answer = exporter.shutdown();
    assert!(rt; matches!(answer, Err(OTelSdkError::InternalFailure(_))));
    Ok(())
}
