//! Calls on a table of spans, and calls that make its spans active.
use crate::context::contexts::remote;
use crate::lines::Lines;
use opentelemetry::context::{Context, ContextStack};
use opentelemetry::trace::noop::NoopSpan;
use opentelemetry::trace::{
    Span, SpanCause, SpanContext, SpanRefused, Spans, TraceState, mark_span_as_active,
};
use std::alloc::{AllocError, Global};

/// A number of spans for which a table allocates more than once.
const MANY: u64 = 40;

/// Many more spans than a table that held `MANY` has room for.
const MOST: u64 = 10_000;

/// The number of attachments of a stack, for which a new one has room.
pub const ATTACHED: u16 = 8;

pub fn play<R: Print>(alloc: Global, lines: &Lines<'_, R>) {
    if lines.begin("spans-insert") {
        insert(alloc, lines);
    }
    if lines.begin("spans-looks") {
        lines.end(looks(alloc, lines));
    }
    if lines.begin("spans-in-turn") {
        lines.end(in_turn(alloc, lines));
    }
    for (name, call) in CALLS {
        if lines.begin(name) {
            lines.end(of_stack(alloc, lines, call));
        }
    }
}

/// A call.
#[derive(Clone, Copy)]
enum Call {
    WithSpan,
    CurrentWithSpan,
    MarkSpanAsActive,
}

/// The scenarios, each of which starts with a stack that has to grow at the next
/// attach.
const CALLS: [(&str, Call); 3] = [
    ("context-with-span", Call::WithSpan),
    ("stack-current-with-span", Call::CurrentWithSpan),
    ("mark-span-as-active", Call::MarkSpanAsActive),
];

/// A stack that has to grow at the next attach. The current context has a remote span.
pub fn stack(alloc: Global) -> Result<ContextStack, AllocError> {
    let mut stack = ContextStack::new(alloc)?;
    for _ in 1..ATTACHED {
        stack.push(Context::new())?;
    }
    stack.push(Context::new().with_remote_span_context(alloc, remote(1, TraceState::NONE))?)?;
    Ok(stack)
}

/// The error of a failed request. Numbers are never used up here.
pub fn error_of(cause: SpanCause) -> Result<u64, AllocError> {
    match cause {
        SpanCause::Memory(error) => Err(error),
        SpanCause::NumbersUsedUp => Ok(0),
    }
}

/// Inserts numbers as spans, each equal to the number that it gets, until an insert fails or
/// `count` are present. Returns the number in the error, which is the number of present spans, and
/// the error.
fn inserted(spans: &mut Spans<u64>) -> (u64, Result<u64, AllocError>) {
    for count in 0..MANY {
        if let Err(refused) = spans.insert(count) {
            return (refused.span, error_of(refused.cause));
        }
    }
    (MANY, Ok(MANY))
}

fn insert<R: Print>(alloc: Global, lines: &Lines<'_, R>) {
    let mut spans = Spans::new(alloc);
    let (count, answer) = inserted(&mut spans);
    lines.answer_of(answer);
    lines.due(spans.next_number() == count && spans.get(count).is_none());
}

fn looks<R: Print>(alloc: Global, lines: &Lines<'_, R>) -> Result<(), AllocError> {
    let mut spans: Spans<u64> = Spans::new(alloc);
    if let Err(refused) = spans.insert(7) {
        error_of(refused.cause)?;
    }
    lines.free("Spans::get", &spans.get(0).is_some());
    lines.free("Spans::get_mut", &spans.get_mut(1).is_some());
    lines.free("Spans::take", &spans.take(0).unwrap_or(0));
    lines.free("Spans::discard", &spans.discard(0));
    lines.free("Spans::len", &spans.len());
    lines.free("Spans::next_number", &spans.next_number());
    Ok(())
}

/// Takes each span once the next one is inserted, beside one that stays. The room of taken spans is
/// used again, so no insert allocates.
fn in_turn<R: Print>(alloc: Global, lines: &Lines<'_, R>) -> Result<(), AllocError> {
    let mut spans: Spans<u64> = Spans::new(alloc);
    inserted(&mut spans).1?;
    for number in 1..MANY {
        spans.take(number);
    }
    let mut taken = 0;
    for number in MANY..MOST {
        if spans.insert(number).is_ok() && spans.take(number - 1).is_some() {
            taken += 1;
        }
    }
    lines.free("Spans::take", &taken);
    Ok(())
}

fn of_stack<R: Print>(alloc: Global, lines: &Lines<'_, R>, call: Call) -> Result<(), AllocError> {
    let mut stack = stack(alloc)?;
    let mut spans = Spans::new(alloc);
    let answer = put(alloc, &mut stack, &mut spans, call);
    let is_put = answer.is_ok();
    refused(lines, answer);
    lines.due(
        stack.newest_position() == ATTACHED
            && spans.get(0).is_some() == is_put
            && spans.next_number() < 2,
    );
    Ok(())
}

/// Makes this call, detaches the attached context, and returns the span's number.
fn put(
    alloc: Global,
    stack: &mut ContextStack,
    spans: &mut Spans<NoopSpan>,
    call: Call,
) -> Result<u64, SpanRefused<NoopSpan>> {
    let span = NoopSpan::DEFAULT;
    match call {
        Call::WithSpan => {
            stack.current().with_span(alloc, spans, span)?;
            Ok(0)
        }
        Call::CurrentWithSpan => {
            stack.current_with_span(spans, span)?;
            Ok(0)
        }
        Call::MarkSpanAsActive => match mark_span_as_active(stack, spans, span) {
            Ok((guard, number)) => {
                stack.detach(guard);
                Ok(number)
            }
            Err(refused) => Err(refused),
        },
    }
}

/// Prints the number, or the error and whether the span in it is the one that was passed in.
fn refused<R: Print>(lines: &Lines<'_, R>, answer: Result<u64, SpanRefused<NoopSpan>>) {
    match answer {
        Ok(number) => {
            lines.answer(&number);
            lines.due(true);
        }
        Err(refused) => {
            let is_given = *refused.span.span_context() == SpanContext::NONE;
            lines.answer_of(error_of(refused.cause));
            lines.due(is_given);
        }
    }
}
