//! Contexts and spans that are held at the same time, whose memory is counted.
use crate::contexts::named;
use crate::operation::{Operation, Task, add, repeat};
use crate::sdk::{fill_current, traced};
use opentelemetry::context::{Context, ContextStack};
use opentelemetry::trace::{SpanContext, SpanId, TraceFlags, TraceId, TraceState, Tracing};
use otel_sdk::trace::{InMemorySpanExporter, Sampler};
use std::alloc::{AllocError, Global};

pub fn play(task: &Task<'_>, alloc: Global, rt: HostRuntime) -> Result<Option<u64>, AllocError> {
    let size = task.size;
    let is_of_spans = match task.name {
        "held_span_context" => true,
        "held_value_context" => false,
        _ => return hold_spans(task, alloc, rt),
    };
    repeat(
        Contexts {
            alloc,
            size,
            is_of_spans,
        },
        task.times,
    )
}

fn hold_spans(task: &Task<'_>, alloc: Global, rt: HostRuntime) -> Result<Option<u64>, AllocError> {
    let is_queued = match task.name {
        "held_live_span" => false,
        "held_queued_span" => true,
        _ => return Ok(None),
    };
    repeat(
        Spans {
            alloc,
            rt,
            size: task.size,
            is_queued,
        },
        task.times,
    )
}

/// A context with a remote span.
fn with_remote_span(alloc: Global) -> Result<Context, AllocError> {
    let span_context = SpanContext::new(
        TraceId::from(1),
        SpanId::from(1),
        TraceFlags::SAMPLED,
        true,
        TraceState::NONE,
    );
    Context::new().with_remote_span_context(alloc, span_context)
}

/// Contexts with parts of their own, each a remote span or a value, are attached and dropped.
#[derive(Drop)]
struct Contexts {
    alloc: Global,
    size: usize,
    is_of_spans: bool,
}

impl Operation for Contexts {
    fn once(&mut self, sum: &mut u64) -> Result<(), AllocError> {
        let mut stack = ContextStack::new(self.alloc)?;
        for _ in 0..self.size {
            let context = if self.is_of_spans {
                with_remote_span(self.alloc)?
            } else {
                named(self.alloc)?
            };
            stack.push(context)?;
            add(sum, 1);
        }
        Ok(())
    }
}

/// Spans with two attributes and an event are entered. Each is left open, or exited and queued.
#[derive(Drop)]
struct Spans {
    alloc: Global,
    rt: HostRuntime,
    size: usize,
    is_queued: bool,
}

impl Operation for Spans {
    fn once(&mut self, sum: &mut u64) -> Result<(), AllocError> {
        let exporter = InMemorySpanExporter::new(self.alloc);
        let mut tracing = traced(self.alloc, self.rt, Sampler::AlwaysOn, exporter)?;
        for _ in 0..self.size {
            let entered = tracing.enter("work").map_err(|_| AllocError)?;
            fill_current(self.alloc, &mut tracing)?;
            if self.is_queued {
                tracing.exit(entered);
            }
            add(sum, 1);
        }
        Ok(())
    }
}
