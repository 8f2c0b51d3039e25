//! Operations on spans: contexts with a span in it, and work in a span.
use crate::contexts::{remote, with_entries};
use crate::operation::{Operation, Task, add, repeat};
use opentelemetry::StringValue;
use opentelemetry::context::{Context, ContextStack};
use opentelemetry::trace::noop::{NoopSpan, NoopTracer};
use opentelemetry::trace::{
    Run, Span, SpanContext, SpanId, Spans, TraceFlags, TraceId, TraceState, Tracer,
    mark_span_as_active,
};
use otel_examples::recording::{RecordingSpan, RecordingTracer};
use std::alloc::{AllocError, Global};

pub type Table = Spans<RecordingSpan>;

pub fn play(task: &Task<'_>, alloc: Global) -> Result<Option<u64>, AllocError> {
    match task.name {
        "span_into_context" => {
            let spans = table_of(alloc, task.size)?;
            into_context(alloc, spans, Context::new(), task.times)
        }
        "span_into_entries" => {
            let context = match task.size {
                0 => Context::new(),
                size => with_entries(alloc, size)?,
            };
            into_context(alloc, Spans::new(alloc), context, task.times)
        }
        "span_is_recording" => {
            let mut spans = table_of(alloc, task.size.saturating_sub(1))?;
            let context = with_span(alloc, &Context::new(), &mut spans)?;
            repeat(Asking { spans, context }, task.times)
        }
        "span_mark_active" => {
            let spans = table_of(alloc, task.size)?;
            let stack = ContextStack::new(alloc)?;
            repeat(
                Marking {
                    alloc,
                    stack,
                    spans,
                },
                task.times,
            )
        }
        "span_in_span" => {
            let spans = table_of(alloc, task.size)?;
            let tracer = RecordingTracer {
                trace_id: TraceId::from(7),
            };
            in_span(alloc, tracer, ContextStack::new(alloc)?, spans, task.times)
        }
        "span_in_span_noop" => {
            let stack = ContextStack::new(alloc)?;
            in_span(alloc, NoopTracer::new(), stack, no_spans(alloc), task.times)
        }
        "span_in_span_noop_remote" => {
            let mut stack = ContextStack::new(alloc)?;
            stack.push(remote(alloc)?)?;
            in_span(alloc, NoopTracer::new(), stack, no_spans(alloc), task.times)
        }
        _ => Ok(None),
    }
}

fn into_context(
    alloc: Global,
    spans: Table,
    context: Context,
    times: u64,
) -> Result<Option<u64>, AllocError> {
    let into = IntoContext {
        alloc,
        spans,
        context,
    };
    repeat(into, times)
}

fn no_spans(alloc: Global) -> Spans<NoopSpan> {
    Spans::new(alloc)
}

fn in_span<T: Tracer + Drop>(
    alloc: Global,
    tracer: T,
    stack: ContextStack,
    spans: Spans<T::Span>,
    times: u64,
) -> Result<Option<u64>, AllocError> {
    let working = Working {
        alloc,
        tracer,
        stack,
        spans,
    };
    repeat(working, times)
}

#[inline(never)]
fn span_of(alloc: Global) -> RecordingSpan {
    let context = SpanContext::new(
        TraceId::from(1),
        SpanId::from(1),
        TraceFlags::SAMPLED,
        false,
        TraceState::NONE,
    );
    RecordingSpan::new(alloc, context, StringValue::from("work"))
}

/// A table with `size` spans.
#[inline(never)]
pub fn table_of(alloc: Global, size: usize) -> Result<Table, AllocError> {
    let mut spans = Spans::new(alloc);
    for _ in 0..size {
        insert(alloc, &mut spans)?;
    }
    Ok(spans)
}

#[inline(never)]
pub fn insert(alloc: Global, spans: &mut Table) -> Result<u64, AllocError> {
    spans.insert(span_of(alloc)).map_err(|_| AllocError)
}

#[inline(never)]
pub fn take(spans: &mut Table, number: u64, sum: &mut u64) {
    if spans.take(number).is_some() {
        add(sum, 1);
    }
}

#[inline(never)]
fn discard<S: Drop>(spans: &mut Spans<S>, number: u64, sum: &mut u64) {
    if spans.discard(number) {
        add(sum, 1);
    }
}

#[inline(never)]
fn with_span(
    alloc: Global,
    context: &Context,
    spans: &mut Table,
) -> Result<Context, AllocError> {
    match context.with_span(alloc, spans, span_of(alloc)) {
        Ok(context) => Ok(context),
        Err(_) => Err(AllocError),
    }
}

#[inline(never)]
fn ask<S: Span>(context: &Context, spans: &mut Spans<S>, sum: &mut u64) {
    let span = (&*context).span(spans);
    add(sum, usize::from(span.is_recording()));
}

#[inline(never)]
fn mark(
    alloc: Global,
    stack: &mut ContextStack,
    spans: &mut Table,
    sum: &mut u64,
) -> Result<(), AllocError> {
    let Ok((guard, number)) = mark_span_as_active(stack, spans, span_of(alloc)) else {
        return Err(AllocError);
    };
    drop(stack.detach(guard));
    discard(spans, number, sum);
    Ok(())
}

#[inline(never)]
fn work<T: Tracer>(
    alloc: Global,
    tracer: &T,
    stack: &mut ContextStack,
    spans: &mut Spans<T::Span>,
) -> Result<(bool, u64), AllocError> {
    let name = StringValue::from("work");
    let body = Run(|_stack: &mut ContextStack, _spans: &mut Spans<T::Span>, context: Context| {
        context.has_active_span()
    });
    match tracer.in_span(alloc, stack, spans, name, body) {
        Ok(ran) => Ok(ran),
        Err(_) => Err(AllocError),
    }
}

/// A span is inserted into the table and a context, and discarded.
#[derive(Drop)]
struct IntoContext {
    alloc: Global,
    spans: Table,
    context: Context,
}

impl Operation for IntoContext {
    fn once(&mut self, sum: &mut u64) -> Result<(), AllocError> {
        let number = self.spans.next_number();
        let context = with_span(self.alloc, &self.context, &mut self.spans)?;
        add(sum, usize::from(context.has_active_span()));
        discard(&mut self.spans, number, sum);
        Ok(())
    }
}

#[derive(Drop)]
struct Asking {
    spans: Table,
    context: Context,
}

impl Operation for Asking {
    fn once(&mut self, sum: &mut u64) -> Result<(), AllocError> {
        ask(&self.context, &mut self.spans, sum);
        Ok(())
    }
}

#[derive(Drop)]
struct Marking {
    alloc: Global,
    stack: ContextStack,
    spans: Table,
}

impl Operation for Marking {
    fn once(&mut self, sum: &mut u64) -> Result<(), AllocError> {
        mark(self.alloc, &mut self.stack, &mut self.spans, sum)
    }
}

/// A body runs in a span, and the span is discarded.
#[derive(Drop)]
struct Working<T: Tracer> {
    alloc: Global,
    tracer: T,
    stack: ContextStack,
    spans: Spans<T::Span>,
}

impl<T: Tracer + Drop> Operation for Working<T> {
    fn once(&mut self, sum: &mut u64) -> Result<(), AllocError> {
        let (active, number) = work(self.alloc, &self.tracer, &mut self.stack, &mut self.spans)?;
        add(sum, usize::from(active));
        discard(&mut self.spans, number, sum);
        Ok(())
    }
}
