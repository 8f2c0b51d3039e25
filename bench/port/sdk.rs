//! Operations on spans of the SDK: their start and end, and their way to an exporter.
use crate::operation::{Operation, Task, add, repeat};
use opentelemetry::trace::noop::NoopTracer;
use opentelemetry::trace::{Span, Tracer, TracerProvider, Tracing};
use opentelemetry::{Context, Key, KeyValue, StringValue, Value};
use otel_sdk::error::OTelSdkError;
use otel_sdk::trace::{
    ExporterProcessor, Build, Clock, CountedIdGenerator, Exports, FinishedSpans,
    InMemorySpanExporter, ManualClock, OpenPipeline, RandomIdGenerator, Sampler, SdkTracer,
    SdkTracerProvider, SdkTracing, SpanData, SpanExporter, SpanProcessor, SystemClock,
    TracerPipeline, TracingBuilder, WithExporter,
};
use std::alloc::{AllocError, Global};

pub type Pipeline = TracerPipeline<Sampler, CountedIdGenerator, ManualClock>;

/// A value that traces, with counted ids, a fixed clock and one exporter.
pub type Traced<E> = SdkTracing<
    OpenPipeline<Sampler, CountedIdGenerator, ManualClock>,
    ((), ExporterProcessor<E>),
>;

type SystemPipeline = TracerPipeline<
    Sampler,
    RandomIdGenerator<HostRuntime>,
    SystemClock<HostRuntime>,
>;

pub fn play(task: &Task<'_>, alloc: Global, rt: HostRuntime) -> Result<Option<u64>, AllocError> {
    match task.name {
        "sdk_span_sampled" => {
            let tracer = tracer(alloc, rt, Sampler::AlwaysOn)?;
            repeat(Recording { alloc, tracer }, task.times)
        }
        "sdk_span_system" => {
            let tracer = system_tracer(alloc, rt)?;
            let clock = SystemClock::new(rt);
            repeat(
                Timed {
                    alloc,
                    tracer,
                    clock,
                },
                task.times,
            )
        }
        "sdk_span_unsampled" => {
            let tracer = tracer(alloc, rt, Sampler::AlwaysOff)?;
            repeat(Dropping { alloc, tracer }, task.times)
        }
        "sdk_span_noop" => {
            let tracer = NoopTracer::new();
            repeat(Ignoring { alloc, tracer }, task.times)
        }
        "sdk_queue" => exporting(task, alloc, rt, false),
        "sdk_queue_flush" => exporting(task, alloc, rt, true),
        _ => Ok(None),
    }
}

/// A tracer with this sampler, with counted ids and a fixed clock.
pub fn tracer(
    alloc: Global,
    rt: HostRuntime,
    sampler: Sampler,
) -> Result<SdkTracer<Pipeline>, AllocError> {
    let provider = SdkTracerProvider::builder(rt)
        .with_sampler(sampler)
        .with_id_generator(CountedIdGenerator::new())
        .with_clock(ManualClock::new(1))
        .build(alloc)?;
    provider.tracer(alloc, StringValue::from("bench"))
}

/// A tracer that samples each span, with random ids and the system's clock.
fn system_tracer(alloc: Global, rt: HostRuntime) -> Result<SdkTracer<SystemPipeline>, AllocError> {
    let provider = SdkTracerProvider::builder(rt)
        .with_sampler(Sampler::AlwaysOn)
        .build(alloc)?;
    provider.tracer(alloc, StringValue::from("bench"))
}

/// Returns a value that traces, with this sampler and exporter.
pub fn traced<E: SpanExporter>(
    alloc: Global,
    rt: HostRuntime,
    sampler: Sampler,
    exporter: E,
) -> Result<Traced<E>, AllocError> {
    TracingBuilder::new(rt)
        .with_sampler(sampler)
        .with_id_generator(CountedIdGenerator::new())
        .with_clock(ManualClock::new(1))
        .with_exporter(exporter)
        .build(alloc, "bench")
}

fn exporting(
    task: &Task<'_>,
    alloc: Global,
    rt: HostRuntime,
    is_flushed: bool,
) -> Result<Option<u64>, AllocError> {
    let size = task.size;
    repeat(
        Exporting {
            alloc,
            rt,
            size,
            is_flushed,
        },
        task.times,
    )
}

#[inline(never)]
pub fn start<T: Tracer>(alloc: Global, tracer: &T) -> Result<T::Span, AllocError> {
    tracer.start_with_context(alloc, StringValue::from("work"), &Context::new())
}

/// Sets two attributes and adds an event.
#[inline(never)]
pub fn fill<S: Span>(alloc: Global, span: &mut S) -> Result<(), AllocError> {
    let method = KeyValue::new(Key::from("http.request.method"), Value::from("GET"));
    let status = KeyValue::new(Key::from("http.response.status_code"), Value::I64(200));
    span.set_attribute(alloc, method)?;
    span.set_attribute(alloc, status)?;
    span.add_event(alloc, StringValue::from("cache miss"), Vec::new(alloc), 2)
}

#[inline(never)]
fn end<S: Span>(mut span: S, timestamp: u64, sum: &mut u64) {
    add(sum, 1 + usize::from(span.is_recording()));
    span.end(timestamp);
}

/// Sets two attributes of the current span, and adds an event.
#[inline(never)]
pub fn fill_current<T: Tracing>(alloc: Global, tracing: &mut T) -> Result<(), AllocError> {
    tracing.set("http.request.method", "GET")?;
    tracing.set("http.response.status_code", 200)?;
    tracing.add_event(StringValue::from("cache miss"), Vec::new(alloc))
}

/// A span is entered, gets two attributes and an event, and is exited, as often as `size` says.
#[inline(never)]
fn make<T: Tracing>(alloc: Global, tracing: &mut T, size: usize) -> Result<(), AllocError> {
    for _ in 0..size {
        let entered = tracing.enter("work").map_err(|_| AllocError)?;
        fill_current(alloc, tracing)?;
        tracing.exit(entered);
    }
    Ok(())
}

pub fn no_memory(_error: OTelSdkError) -> AllocError {
    AllocError
}

#[inline(never)]
fn flush<T: Exports>(tracing: &mut T, sum: &mut u64) -> Result<(), AllocError> {
    tracing.flush().map_err(no_memory)?;
    add(sum, tracing.processors().queued_spans());
    Ok(())
}

/// Returns ended spans, as [`make`] makes them.
pub fn ended(alloc: Global, rt: HostRuntime, size: usize) -> Result<Vec<SpanData>, AllocError> {
    let exporter = InMemorySpanExporter::new(alloc);
    let mut tracing = traced(alloc, rt, Sampler::AlwaysOn, exporter)?;
    make(alloc, &mut tracing, size)?;
    tracing.flush().map_err(no_memory)?;
    tracing.processors().1.exporter().get_finished_spans()
}

/// A span that records starts and ends.
#[derive(Drop)]
struct Recording {
    alloc: Global,
    tracer: SdkTracer<Pipeline>,
}

impl Operation for Recording {
    fn once(&mut self, sum: &mut u64) -> Result<(), AllocError> {
        let mut span = start(self.alloc, &self.tracer)?;
        fill(self.alloc, &mut span)?;
        end(span, 3, sum);
        Ok(())
    }
}

/// The same with random ids, from one moment of the system's clock to another.
#[derive(Drop)]
struct Timed {
    alloc: Global,
    tracer: SdkTracer<SystemPipeline>,
    clock: SystemClock<HostRuntime>,
}

impl Operation for Timed {
    fn once(&mut self, sum: &mut u64) -> Result<(), AllocError> {
        let mut span = start(self.alloc, &self.tracer)?;
        fill(self.alloc, &mut span)?;
        end(span, self.clock.now(), sum);
        Ok(())
    }
}

/// A span that the sampler drops starts and ends.
#[derive(Drop)]
struct Dropping {
    alloc: Global,
    tracer: SdkTracer<Pipeline>,
}

impl Operation for Dropping {
    fn once(&mut self, sum: &mut u64) -> Result<(), AllocError> {
        let span = start(self.alloc, &self.tracer)?;
        end(span, 3, sum);
        Ok(())
    }
}

/// A span of the no-op tracer starts and ends.
#[derive(Drop)]
struct Ignoring {
    alloc: Global,
    tracer: NoopTracer,
}

impl Operation for Ignoring {
    fn once(&mut self, sum: &mut u64) -> Result<(), AllocError> {
        let span = start(self.alloc, &self.tracer)?;
        end(span, 3, sum);
        Ok(())
    }
}

/// Spans are entered and exited, and exported to memory if that is wanted.
#[derive(Drop)]
struct Exporting {
    alloc: Global,
    rt: HostRuntime,
    size: usize,
    is_flushed: bool,
}

impl Operation for Exporting {
    fn once(&mut self, sum: &mut u64) -> Result<(), AllocError> {
        let exporter = InMemorySpanExporter::new(self.alloc);
        let mut tracing = traced(self.alloc, self.rt, Sampler::AlwaysOn, exporter)?;
        make(self.alloc, &mut tracing, self.size)?;
        add(sum, tracing.processors().queued_spans());
        if self.is_flushed {
            flush(&mut tracing, sum)?;
        }
        Ok(())
    }
}
