//! Pictures of traces, each of a batch of ended spans.
use crate::operation::{Operation, Task, add, repeat};
use crate::sdk::ended;
use otel_sdk::trace::{Exporter, SpanData};
use otel_waterfall::WaterfallExporter;
use std::alloc::{AllocError, Global};
use std::io::{self, Write};

/// Adds up the lengths of texts, in place of showing them.
#[derive(Drop)]
struct ByteCounter {
    bytes: usize,
}

impl Write for ByteCounter {
    fn write(&mut self, bytes: &[u8]) -> io::Result<usize> {
        self.bytes = self.bytes.wrapping_add(bytes.len());
        Ok(bytes.len())
    }

    fn flush(&mut self) -> io::Result<()> {
        Ok(())
    }
}

type Drawer = WaterfallExporter<ByteCounter>;

pub fn play(task: &Task<'_>, alloc: Global, rt: HostRuntime) -> Result<Option<u64>, AllocError> {
    if task.name != "picture_waterfall" {
        return Ok(None);
    }
    let exporter = WaterfallExporter::new(alloc, ByteCounter { bytes: 0 });
    let batch = ended(alloc, rt, task.size)?;
    repeat(Drawing { exporter, batch }, task.times)
}

#[inline(never)]
fn draw(exporter: &mut Drawer, batch: &[SpanData], sum: &mut u64) -> Result<(), AllocError> {
    exporter.export(batch).map_err(|_| AllocError)?;
    add(sum, exporter.output().bytes);
    Ok(())
}

/// A batch is drawn.
#[derive(Drop)]
struct Drawing {
    exporter: Drawer,
    batch: Vec<SpanData>,
}

impl Operation for Drawing {
    fn once(&mut self, sum: &mut u64) -> Result<(), AllocError> {
        draw(&mut self.exporter, self.batch.as_slice(), sum)
    }
}
