//! Work in a span.
use crate::lines::Lines;
use crate::tracing::active::{ATTACHED, error_of, stack};
use crate::tracing::tracers::{NamingTracer, builder, name};
use opentelemetry::context::{Context, ContextStack};
use opentelemetry::trace::{SpanBody, Spans, StartError, Tracer};
use otel_examples::recording::RecordingSpan;
use std::alloc::{AllocError, Global};
use std::cell::Cell;

/// A call on a tracer.
#[derive(Clone, Copy)]
enum Call {
    InSpan,
    WithContext,
    WithBuilder,
    WithBuilderAndContext,
}

/// The scenarios, each of which starts with a stack that has to grow at the next
/// attach.
const CALLS: [(&str, Call); 4] = [
    ("tracer-in-span", Call::InSpan),
    ("tracer-in-span-with-context", Call::WithContext),
    ("tracer-in-span-with-builder", Call::WithBuilder),
    (
        "tracer-in-span-with-builder-and-context",
        Call::WithBuilderAndContext,
    ),
];

pub fn play<R: Print>(alloc: Global, lines: &Lines<'_, R>) {
    for (name, call) in CALLS {
        if lines.begin(name) {
            lines.end(of_stack(alloc, lines, call));
        }
    }
}

/// A body that counts its calls.
#[derive(Drop)]
struct Counted<'a> {
    calls: &'a Cell<u64>,
}

impl SpanBody<RecordingSpan> for Counted<'_> {
    type Out = ();

    ghost may_leave = { λ _ _ _ _ _ _ _. Unit {0} };

    fn call(self, _stack: &mut ContextStack, _spans: &mut Spans<RecordingSpan>, _context: Context) {
        self.calls.set(self.calls.get().saturating_add(1));
    }
}

fn of_stack<R: Print>(alloc: Global, lines: &Lines<'_, R>, call: Call) -> Result<(), AllocError> {
    let mut stack = stack(alloc)?;
    let mut spans = Spans::new(alloc);
    let calls = Cell::new(0);
    let body = Counted { calls: &calls };
    let answer = ran(alloc, &mut stack, &mut spans, body, call);
    let count = if answer.is_ok() { 1 } else { 0 };
    refused(lines, answer);
    lines.due(calls.get() == count);
    lines.due(stack.newest_position() == ATTACHED && spans.len() as u64 == count);
    Ok(())
}

fn ran(
    alloc: Global,
    stack: &mut ContextStack,
    spans: &mut Spans<RecordingSpan>,
    body: Counted<'_>,
    call: Call,
) -> Result<((), u64), StartError<RecordingSpan>> {
    let parent = Context::new();
    match call {
        Call::InSpan => NamingTracer.in_span(alloc, stack, spans, name(), body),
        Call::WithContext => {
            NamingTracer.in_span_with_context(alloc, stack, spans, name(), &parent, body)
        }
        Call::WithBuilder => {
            NamingTracer.in_span_with_builder(alloc, stack, spans, builder(), body)
        }
        Call::WithBuilderAndContext => NamingTracer.in_span_with_builder_and_context(
            alloc,
            stack,
            spans,
            builder(),
            &parent,
            body,
        ),
    }
}

/// Prints the span's number, or the error and whether the span in it, if one was built, is the one
/// that was built.
fn refused<R: Print>(lines: &Lines<'_, R>, answer: Result<((), u64), StartError<RecordingSpan>>) {
    match answer {
        Ok((_, number)) => {
            lines.answer(&number);
            lines.due(true);
        }
        Err(StartError::Build(error)) => {
            lines.answer(&error);
            lines.due(true);
        }
        Err(StartError::Refused(refused)) => {
            let is_built = refused.span.name() == "s";
            lines.answer_of(error_of(refused.cause));
            lines.due(is_built);
        }
    }
}
