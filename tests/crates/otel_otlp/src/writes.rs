//! The calls of a writer, which no clause can count, and the first bytes after a line that another
//! program didn't finish.
use crate::batches::{root, scope};
use crate::files::line_of;
use crate::records::observed;
use otel_otlp::{OtlpJsonLogExporter, OtlpJsonSpanExporter};
use otel_sdk::resource::Resource;
use otel_sdk::trace::{Exporter, SpanData};
use std::alloc::Global;
use std::io;
use std::io::{ErrorKind, Write};
use std::rc::Rc;
use std::test::Fail;

/// A writer that takes all bytes. The first `interruptions` of its calls are interrupted. It counts
/// the others, and how many of them end in a newline.
#[derive(Drop)]
struct Counting {
    writes: usize,
    lines: usize,
    interruptions: usize,
}

impl Write for Counting {
    fn write(&mut self, bytes: &[u8]) -> io::Result<usize> {
        if self.interruptions > 0 {
            self.interruptions -= 1;
            return Err(ErrorKind::Interrupted.into());
        }
        self.writes = self.writes.saturating_add(1);
        if bytes.last() == Some(&b'\n') {
            self.lines = self.lines.saturating_add(1);
        }
        Ok(bytes.len())
    }

    fn flush(&mut self) -> io::Result<()> {
        Ok(())
    }
}

fn counting(interruptions: usize) -> Counting {
    Counting {
        writes: 0,
        lines: 0,
        interruptions,
    }
}

fn batch(alloc: Global) -> Result<[SpanData; 1], Fail> {
    Ok([root(alloc, 1, scope(alloc, "s")?)?])
}

#[test]
fn a_line_is_one_write(rt: HostRuntime) -> Result<(), Fail> {
    let alloc = rt.alloc();
    let mut exporter = OtlpJsonSpanExporter::new(alloc, counting(0))?;
    for lines in 1..4 {
        assert!(rt; exporter.export(&batch(alloc)?).is_ok());
        assert_eq!(rt; exporter.get_ref().writes, lines);
        assert_eq!(rt; exporter.get_ref().lines, lines);
    }
    assert!(rt; exporter.shutdown().is_ok());
    assert_eq!(rt; exporter.get_ref().writes, 3);
    Ok(())
}

#[test]
fn a_line_of_records_is_one_write(rt: HostRuntime) -> Result<(), Fail> {
    let alloc = rt.alloc();
    let mut exporter = OtlpJsonLogExporter::new(alloc, counting(0))?;
    let records = [
        observed(alloc, 1, scope(alloc, "s")?),
        observed(alloc, 2, scope(alloc, "t")?),
    ];
    assert!(rt; exporter.export(&records).is_ok());
    assert!(rt; exporter.force_flush().is_ok());
    assert_eq!(rt; exporter.get_ref().writes, 1);
    assert_eq!(rt; exporter.get_ref().lines, 1);
    Ok(())
}

#[test]
fn an_interrupted_write_is_tried_again(rt: HostRuntime) -> Result<(), Fail> {
    let alloc = rt.alloc();
    let mut exporter = OtlpJsonSpanExporter::new(alloc, counting(3))?;
    assert!(rt; exporter.export(&batch(alloc)?).is_ok());
    assert_eq!(rt; exporter.get_ref().interruptions, 0);
    assert_eq!(rt; exporter.get_ref().writes, 1);
    Ok(())
}

#[test]
fn a_line_after_a_torn_line(rt: HostRuntime) -> Result<(), Fail> {
    let alloc = rt.alloc();
    let none = Rc::new(alloc, Resource::builder_empty(alloc).build())?;
    let Ok(line) = line_of(alloc, none, &batch(alloc)?) else {
        return Err(Fail::from("refused"));
    };
    let torn: Vec<u8> = Vec::from_slice(alloc, b"{\"resource")?;
    let mut exporter = OtlpJsonSpanExporter::new(alloc, torn)?.with_pending_newline();
    assert!(rt; exporter.export(&batch(alloc)?).is_ok());
    assert!(rt; exporter.shutdown().is_ok());
    let mut wanted = Vec::from_slice(alloc, b"{\"resource\n")?;
    wanted.extend_from_slice(line.as_slice())?;
    assert_eq!(rt; exporter.get_ref().as_slice(), wanted.as_slice());
    Ok(())
}

#[test]
fn a_flush_finishes_a_torn_line(rt: HostRuntime) -> Result<(), Fail> {
    let alloc = rt.alloc();
    let writer: Vec<u8> = Vec::new(alloc);
    let mut exporter = OtlpJsonLogExporter::new(alloc, writer)?.with_pending_newline();
    assert!(rt; exporter.export(&[]).is_ok());
    assert!(rt; exporter.get_ref().is_empty());
    assert!(rt; exporter.force_flush().is_ok());
    assert!(rt; exporter.shutdown().is_ok());
    assert_eq!(rt; exporter.get_ref().as_slice(), b"\n".as_slice());
    Ok(())
}
