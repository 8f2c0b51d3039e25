//! The lines that a failing writer leaves, and the lines that the exporter then writes.
use crate::batches::{cart, root, scope, three};
use otel_otlp::{OtlpJsonSpanExporter, traces_text};
use otel_sdk::error::OTelSdkError;
use otel_sdk::resource::Resource;
use otel_sdk::trace::SpanData;
use otel_sdk_base::Exporter;
use std::alloc::Global;
use std::io;
use std::io::{ErrorKind, Write};
use std::rc::Rc;
use std::test::Fail;

/// A writer that takes a number of bytes, then fails a number of times, then takes everything.
#[derive(Drop)]
pub struct Scripted {
    pub taken: Vec<u8>,
    pub room: usize,
    pub failures: usize,
}

impl Write for Scripted {
    fn write(&mut self, bytes: &[u8]) -> io::Result<usize> {
        let count = if self.failures > 0 {
            bytes.len().min(self.room)
        } else {
            bytes.len()
        };
        if count == 0 && !bytes.is_empty() {
            self.failures -= 1;
            return Err(ErrorKind::BrokenPipe.into());
        }
        self.room -= count.min(self.room);
        match self.taken.extend_from_slice(&bytes[..count]) {
            Ok(()) => Ok(count),
            Err(_) => Err(ErrorKind::OutOfMemory.into()),
        }
    }

    fn flush(&mut self) -> io::Result<()> {
        Ok(())
    }
}

// An exporter to a writer that takes this number of bytes and then fails this number of times.
fn exporter(
    alloc: Global,
    room: usize,
    failures: usize,
) -> Result<OtlpJsonSpanExporter<Scripted>, Fail> {
    let writer = Scripted {
        taken: Vec::new(alloc),
        room,
        failures,
    };
    Ok(OtlpJsonSpanExporter::new(alloc, writer)?)
}

/// Returns the line of the batch, with its `\n`.
pub fn line_of(
    alloc: Global,
    resource: Rc<Resource>,
    batch: &[SpanData],
) -> Result<Vec<u8>, OTelSdkError> {
    let writer: Vec<u8> = Vec::new(alloc);
    let mut exporter = OtlpJsonSpanExporter::new(alloc, writer)?;
    exporter.set_resource(resource);
    exporter.export(batch)?;
    exporter.shutdown()?;
    Ok(exporter.get_ref().clone()?)
}

fn batch(alloc: Global) -> Result<[SpanData; 1], Fail> {
    Ok([root(alloc, 1, scope(alloc, "s")?)?])
}

fn object(alloc: Global) -> Result<String, Fail> {
    let none = Resource::builder_empty(alloc).build();
    Ok(traces_text(alloc, &none, &batch(alloc)?)?)
}

#[test]
fn a_batch_is_a_line(rt: HostRuntime) -> Result<(), Fail> {
    let alloc = rt.alloc();
    let mut exporter = exporter(alloc, 0, 0)?;
    exporter.set_resource(Rc::new(alloc, cart(alloc)?)?);
    let spans = three(alloc)?;
    assert!(rt; exporter.export(spans.as_slice()).is_ok());
    assert!(rt; exporter.export(&[]).is_ok());
    assert!(rt; exporter.force_flush().is_ok());
    let mut wanted = traces_text(alloc, &cart(alloc)?, spans.as_slice())?;
    wanted.push_str("\n")?;
    assert_eq!(rt; exporter.get_ref().taken.as_slice(), wanted.as_bytes());
    Ok(())
}

#[test]
fn a_vector_takes_the_line(rt: HostRuntime) -> Result<(), Fail> {
    let alloc = rt.alloc();
    let spans = three(alloc)?;
    let Ok(line) = line_of(alloc, Rc::new(alloc, cart(alloc)?)?, spans.as_slice()) else {
        return Err(Fail::from("refused"));
    };
    let mut wanted = traces_text(alloc, &cart(alloc)?, spans.as_slice())?;
    wanted.push_str("\n")?;
    assert_eq!(rt; line.as_slice(), wanted.as_bytes());
    Ok(())
}

#[test]
fn a_line_that_was_cut_off_stands_alone(rt: HostRuntime) -> Result<(), Fail> {
    let alloc = rt.alloc();
    let line = object(alloc)?;
    let mut exporter = exporter(alloc, 60, 1)?;
    let refused = exporter.export(&batch(alloc)?);
    assert!(rt; matches!(refused, Err(OTelSdkError::Io(_))));
    assert!(rt; exporter.export(&batch(alloc)?).is_ok());
    let mut wanted = String::from_str(alloc, line.as_str().get(0..60).ok_or("short")?)?;
    wanted.push_str("\n")?;
    wanted.push_str(line.as_str())?;
    wanted.push_str("\n")?;
    assert_eq!(rt; exporter.get_ref().taken.as_slice(), wanted.as_bytes());
    Ok(())
}

#[test]
fn a_whole_object_is_accepted(rt: HostRuntime) -> Result<(), Fail> {
    let alloc = rt.alloc();
    let line = object(alloc)?;
    let mut exporter = exporter(alloc, line.len(), 1)?;
    assert!(rt; exporter.export(&batch(alloc)?).is_ok());
    assert_eq!(rt; exporter.get_ref().taken.as_slice(), line.as_bytes());
    assert!(rt; exporter.export(&batch(alloc)?).is_ok());
    let mut wanted = String::from_str(alloc, line.as_str())?;
    wanted.push_str("\n")?;
    wanted.push_str(line.as_str())?;
    wanted.push_str("\n")?;
    assert_eq!(rt; exporter.get_ref().taken.as_slice(), wanted.as_bytes());
    Ok(())
}

#[test]
fn a_newline_that_stays_pending_refuses(rt: HostRuntime) -> Result<(), Fail> {
    let alloc = rt.alloc();
    let line = object(alloc)?;
    let mut exporter = exporter(alloc, line.len(), 2)?;
    assert!(rt; exporter.export(&batch(alloc)?).is_ok());
    assert!(rt; exporter.export(&batch(alloc)?).is_err());
    assert_eq!(rt; exporter.get_ref().taken.len(), line.len());
    assert!(rt; exporter.force_flush().is_ok());
    assert_eq!(rt; exporter.get_ref().taken.len(), line.len() + 1);
    Ok(())
}

#[test]
fn a_shut_down_exporter_refuses(rt: HostRuntime) -> Result<(), Fail> {
    let alloc = rt.alloc();
    let line = object(alloc)?;
    let mut exporter = exporter(alloc, line.len(), 1)?;
    assert!(rt; exporter.export(&batch(alloc)?).is_ok());
    assert!(rt; exporter.shutdown().is_ok());
    assert_eq!(rt; exporter.get_ref().taken.len(), line.len() + 1);
    let late = exporter.export(&batch(alloc)?);
    assert!(rt; matches!(late, Err(OTelSdkError::AlreadyShutdown)));
    assert!(rt; matches!(exporter.shutdown(), Err(OTelSdkError::AlreadyShutdown)));
    assert!(rt; matches!(exporter.force_flush(), Err(OTelSdkError::AlreadyShutdown)));
    Ok(())
}
