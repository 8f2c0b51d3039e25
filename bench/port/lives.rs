//! Spans that a value of the SDK enters and exits, and their way to an exporter.
use crate::operation::{Operation, Task, add, repeat};
use crate::sdk::{Traced, fill_current, no_memory, traced};
use opentelemetry::trace::{Entered, Tracing};
use otel_sdk::error::OTelSdkResult;
use otel_sdk::resource::Resource;
use otel_sdk::trace::{Exporter, Exports, Losses, Sampler, SpanData, SpanProcessor};
use otel_sdk_base::Accepted;
use std::alloc::{AllocError, Global};
use std::default::Default;
use std::rc::Rc;

/// The number of spans in a batch.
const BATCH: usize = 512;

/// Counts spans, in place of sending them.
#[derive(Drop)]
struct SpanCounter {
    accepted: Accepted<SpanData>,
    spans: usize,
}

impl Exporter<SpanData> for SpanCounter {
    ghost use Rattle.otel_sdk_base.specs.Export.{any_calls};

    ghost accepted = { λ e. e.accepted.batches };

    ghost calls = { any_calls };

    fn export(&mut self, batch: &[SpanData]) -> OTelSdkResult {
        self.accepted = self.accepted.and(batch);
        self.spans = self.spans.wrapping_add(batch.len());
        Ok(())
    }

    fn force_flush(&mut self) -> OTelSdkResult {
        Ok(())
    }

    fn shutdown(&mut self) -> OTelSdkResult {
        Ok(())
    }

    fn set_resource(&mut self, resource: Rc<Resource>) {
        drop(resource);
    }

    fn losses(&self) -> Losses {
        Losses::default()
    }

    fn last_message(&self) -> Option<&str> {
        None
    }
}

pub fn play(task: &Task<'_>, alloc: Global, rt: HostRuntime) -> Result<Option<u64>, AllocError> {
    let sampler = match task.name {
        "live_span" | "live_child" => Sampler::AlwaysOn,
        "live_span_unsampled" => Sampler::AlwaysOff,
        _ => return Ok(None),
    };
    let counter = SpanCounter {
        accepted: Accepted::new(),
        spans: 0,
    };
    let mut tracing = traced(alloc, rt, sampler, counter)?;
    for _ in 0..task.size {
        tracing.start("work").map_err(|_| AllocError)?;
    }
    if task.name == "live_child" {
        enter(&mut tracing)?;
        return repeat(Children(tracing), task.times);
    }
    repeat(Roots { alloc, tracing }, task.times)
}

#[inline(never)]
fn enter(tracing: &mut Traced<SpanCounter>) -> Result<Entered, AllocError> {
    tracing.enter("work").map_err(|_| AllocError)
}

/// Exits the span, which queues it. A full batch is exported.
#[inline(never)]
fn exit(
    tracing: &mut Traced<SpanCounter>,
    entered: Entered,
    sum: &mut u64,
) -> Result<(), AllocError> {
    tracing.exit(entered);
    if tracing.processors().queued_spans() >= BATCH {
        tracing.flush().map_err(no_memory)?;
        add(sum, tracing.processors().1.exporter().spans % BATCH);
    }
    Ok(())
}

/// A span is entered, filled, exited, and queued.
#[derive(Drop)]
struct Roots {
    alloc: Global,
    tracing: Traced<SpanCounter>,
}

impl Operation for Roots {
    fn once(&mut self, sum: &mut u64) -> Result<(), AllocError> {
        let entered = enter(&mut self.tracing)?;
        fill_current(self.alloc, &mut self.tracing)?;
        add(
            sum,
            1 + usize::from(self.tracing.context().has_active_span()),
        );
        exit(&mut self.tracing, entered, sum)
    }
}

/// A span is entered below the current one, exited, and queued.
#[derive(Drop)]
struct Children(Traced<SpanCounter>);

impl Operation for Children {
    fn once(&mut self, sum: &mut u64) -> Result<(), AllocError> {
        let entered = enter(&mut self.0)?;
        add(sum, 1 + usize::from(self.0.context().has_active_span()));
        exit(&mut self.0, entered, sum)
    }
}
