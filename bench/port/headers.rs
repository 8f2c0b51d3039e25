//! The headers `baggage`, `traceparent` and `tracestate`, read from a carrier and written to it.
use crate::attacks::extract;
use crate::operation::{Operation, Task, add, repeat};
use opentelemetry::Context;
use opentelemetry::propagation::TextMapPropagator;
use opentelemetry::trace::{SpanContext, SpanId, TraceFlags, TraceId, TraceState};
use otel_propagators::TraceContextPropagator;
use std::alloc::{AllocError, Global};
use std::collections::HashMap;

pub fn play(task: &Task<'_>, alloc: Global) -> Result<Option<u64>, AllocError> {
    match task.name {
        "header_baggage" => extract(alloc, members(alloc, "%20", task.size)?, task.times),
        "header_baggage_plain" => extract(alloc, members(alloc, ".", task.size)?, task.times),
        "header_baggage_same" => extract(alloc, "k=1,".repeat(alloc, task.size)?, task.times),
        "header_trace_context" => {
            let reading = Reading {
                alloc,
                propagator: TraceContextPropagator::new(alloc)?,
                carrier: carrier_of(alloc, task.size)?,
            };
            repeat(reading, task.times)
        }
        "header_write_trace_context" => {
            let writing = Writing {
                propagator: TraceContextPropagator::new(alloc)?,
                context: Context::new().with_remote_span_context(alloc, span_context())?,
                carrier: HashMap::new(alloc),
            };
            repeat(writing, task.times)
        }
        _ => Ok(None),
    }
}

/// The header of a baggage with members `key0=value%200` and so on.
#[inline(never)]
fn members(alloc: Global, blank: &str, size: usize) -> Result<String, AllocError> {
    let mut text = String::new(alloc);
    for number in 0..size {
        let comma = if number == 0 { "" } else { "," };
        let member = format!(in alloc; "{comma}key{number}=value{blank}{number}")?;
        text.push_str(member.as_str())?;
    }
    Ok(text)
}

/// The headers of a span context whose trace state has `size` pairs; no headers if `size` is 0.
#[inline(never)]
fn carrier_of(alloc: Global, size: usize) -> Result<HashMap<String, String>, AllocError> {
    let mut carrier = HashMap::new(alloc);
    let parent = "00-4bf92f3577b34da6a3ce929d0e0e4736-00f067aa0ba902b7-01";
    carrier.insert(
        String::from_str(alloc, "traceparent")?,
        String::from_str(alloc, parent)?,
    )?;
    if size > 0 {
        let state = members(alloc, ".", size)?;
        carrier.insert(String::from_str(alloc, "tracestate")?, state)?;
    }
    Ok(carrier)
}

fn span_context() -> SpanContext {
    SpanContext::new(
        TraceId::from(1),
        SpanId::from(1),
        TraceFlags::SAMPLED,
        true,
        TraceState::NONE,
    )
}

#[inline(never)]
fn read(
    alloc: Global,
    propagator: &TraceContextPropagator,
    carrier: &HashMap<String, String>,
    sum: &mut u64,
) {
    match propagator.extract_with_context(alloc, &Context::new(), carrier) {
        Ok(context) => add(sum, usize::from(context.span_context().is_valid())),
        Err(_) => add(sum, 7),
    }
}

#[inline(never)]
fn inject(
    propagator: &TraceContextPropagator,
    context: &Context,
    carrier: &mut HashMap<String, String>,
    sum: &mut u64,
) {
    match propagator.inject_context(context, carrier) {
        Ok(()) => add(sum, 1),
        Err(_) => add(sum, 7),
    }
}

#[derive(Drop)]
struct Reading {
    alloc: Global,
    propagator: TraceContextPropagator,
    carrier: HashMap<String, String>,
}

impl Operation for Reading {
    fn once(&mut self, sum: &mut u64) -> Result<(), AllocError> {
        read(self.alloc, &self.propagator, &self.carrier, sum);
        Ok(())
    }
}

/// Writes to the same carrier again and again.
#[derive(Drop)]
struct Writing {
    propagator: TraceContextPropagator,
    context: Context,
    carrier: HashMap<String, String>,
}

impl Operation for Writing {
    fn once(&mut self, sum: &mut u64) -> Result<(), AllocError> {
        inject(&self.propagator, &self.context, &mut self.carrier, sum);
        Ok(())
    }
}
