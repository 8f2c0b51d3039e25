//! Work that runs in a span.
mod bodies;
mod limits;

use opentelemetry::context::{Context, ContextStack};
use opentelemetry::trace::{
    Run, Span, SpanBuilder, SpanCause, SpanRefused, Spans, StartError, TraceId, Tracer,
};
use opentelemetry::{Key, KeyValue, StringValue, Value};
use otel_examples::recording::{Effect, RecordingSpan};
use std::alloc::{AllocError, Global};
use std::cell::Cell;
use std::test::Fail;
use test_support::{name_of, named, span_context, tracer};

/// The result of a body and the number of its span, or the error.
type InSpan<T> = Result<(T, u64), StartError<RecordingSpan>>;

/// Runs a closure in a span named `work`.
fn in_span<T, F>(
    alloc: Global,
    stack: &mut ContextStack,
    spans: &mut Spans<RecordingSpan>,
    body: F,
) -> InSpan<T>
where
    F: FnOnce(&mut ContextStack, &mut Spans<RecordingSpan>, Context) -> T + Drop,
{
    tracer().in_span(alloc, stack, spans, StringValue::from("work"), Run(body))
}

fn work() -> StringValue {
    StringValue::from("work")
}

/// The span id of the context's span as a number.
fn span_id_of(context: &Context) -> u64 {
    u64::from_be_bytes(context.span_context().span_id().to_bytes())
}

/// A body: the span id of its context's span.
fn id_inside(stack: &mut ContextStack, spans: &mut Spans<RecordingSpan>, context: Context) -> u64 {
    let _ = (stack, spans);
    span_id_of(&context)
}

/// The span ids of a span and of one inside it, each with the span's number.
fn middle(
    alloc: Global,
    stack: &mut ContextStack,
    spans: &mut Spans<RecordingSpan>,
) -> InSpan<(u64, InSpan<u64>)> {
    in_span(alloc, stack, spans, |stack, spans, context| {
        let inner = in_span(
            alloc,
            stack,
            spans,
            |_stack, _spans, context| span_id_of(&context),
        );
        (span_id_of(&context), inner)
    })
}

#[test]
fn spans_three_deep_are_children_of_each_other(rt: HostRuntime) -> Result<(), Fail> {
    let alloc = rt.alloc();
    let mut stack = ContextStack::new(alloc)?;
    let mut spans = Spans::new(alloc);
    let outer = in_span(alloc, &mut stack, &mut spans, |stack, spans, context| {
        (span_id_of(&context), middle(alloc, stack, spans))
    });
    // Each span's id, the result of its body, and its number.
    assert!(rt; matches!(outer, Ok(((1, Ok(((2, Ok((3, 2))), 1))), 0))));
    assert_eq!(rt; stack.newest_position(), 0);
    assert_eq!(rt; spans.len(), 3);
    Ok(())
}

#[test]
fn what_a_body_leaves_on_the_stack_stays(rt: HostRuntime) -> Result<(), Fail> {
    let alloc = rt.alloc();
    let mut stack = ContextStack::new(alloc)?;
    let mut spans = Spans::new(alloc);
    let left = named(alloc, "X")?;
    let result = in_span(alloc, &mut stack, &mut spans, |stack, _spans, _context| {
        stack.push(left).is_ok()
    });
    assert!(rt; matches!(result, Ok((true, _))));
    assert_eq!(rt; stack.newest_position(), 2);
    assert_eq!(rt; name_of(stack.current()), "X");
    assert_eq!(rt; stack.push(Context::new())?, 3);
    Ok(())
}

#[test]
fn a_body_may_detach_its_own_context(rt: HostRuntime) -> Result<(), Fail> {
    let alloc = rt.alloc();
    let mut stack = ContextStack::new(alloc)?;
    let mut spans = Spans::new(alloc);
    stack.push(named(alloc, "base")?)?;
    let result = in_span(alloc, &mut stack, &mut spans, |stack, _spans, _context| {
        stack.pop_id(2).is_some()
    });
    assert!(rt; matches!(result, Ok((true, _))));
    assert_eq!(rt; stack.newest_position(), 1);
    assert_eq!(rt; name_of(stack.current()), "base");
    Ok(())
}

#[test]
fn a_body_may_take_its_span(rt: HostRuntime) -> Result<(), Fail> {
    let alloc = rt.alloc();
    let mut stack = ContextStack::new(alloc)?;
    let mut spans = Spans::starting_at(alloc, 5);
    let result = in_span(alloc, &mut stack, &mut spans, |_stack, spans, context| {
        match context.span_number() {
            Some(number) => spans.take(number),
            None => None,
        }
    });
    match result {
        Ok((Some(span), number)) => {
            assert_eq!(rt; span.name(), "work");
            assert_eq!(rt; number, 5);
        }
        _ => assert!(rt; false),
    }
    assert!(rt; spans.is_empty());
    assert_eq!(rt; spans.next_number(), 6);
    Ok(())
}

#[test]
fn what_a_body_returns_is_handed_on(rt: HostRuntime) -> Result<(), Fail> {
    let alloc = rt.alloc();
    let mut stack = ContextStack::new(alloc)?;
    let mut spans = Spans::new(alloc);
    let result = in_span(alloc, &mut stack, &mut spans, |_stack, _spans, _context| {
        let answer: Result<(), u32> = Err(42);
        answer
    });
    assert!(rt; matches!(result, Ok((Err(42), 0))));
    Ok(())
}

#[test]
fn a_parent_that_is_not_current_is_the_parent(rt: HostRuntime) -> Result<(), Fail> {
    let alloc = rt.alloc();
    let mut stack = ContextStack::new(alloc)?;
    let mut spans = Spans::new(alloc);
    stack.push(named(alloc, "current")?)?;
    let remote = span_context(40);
    let parent = named(alloc, "parent")?.with_remote_span_context(alloc, remote)?;
    let result = tracer().in_span_with_context(
        alloc,
        &mut stack,
        &mut spans,
        work(),
        &parent,
        Run(|stack: &mut ContextStack, spans: &mut Spans<RecordingSpan>, context: Context| {
            let _ = (spans, context);
            let inside = stack.current();
            (
                name_of(inside) == "parent",
                span_id_of(inside),
                inside.span_context().trace_id() == TraceId::from(40),
                inside.span_number(),
            )
        }),
    );
    assert!(rt; matches!(result, Ok(((true, 41, true, Some(0)), 0))));
    assert_eq!(rt; name_of(stack.current()), "current");
    Ok(())
}

fn fill(stack: &mut ContextStack) -> Result<(), AllocError> {
    for _ in 0..65534 {
        stack.push(Context::new())?;
    }
    Ok(())
}

#[test]
fn at_the_greatest_position_the_body_runs_unattached(rt: HostRuntime) -> Result<(), Fail> {
    let alloc = rt.alloc();
    let mut stack = ContextStack::new(alloc)?;
    let mut spans = Spans::new(alloc);
    fill(&mut stack)?;
    let result = in_span(alloc, &mut stack, &mut spans, |stack, _spans, context| {
        (
            context.span_number(),
            stack.current().has_active_span(),
            stack.newest_position(),
        )
    });
    assert!(rt; matches!(result, Ok(((Some(0), false, 65534), 0))));
    assert_eq!(rt; stack.newest_position(), 65534);
    assert_eq!(rt; spans.len(), 1);
    Ok(())
}

#[test]
fn a_table_at_its_last_number_refuses(rt: HostRuntime) -> Result<(), Fail> {
    let alloc = rt.alloc();
    let mut stack = ContextStack::new(alloc)?;
    let mut spans = Spans::starting_at(alloc, u64::MAX);
    let mut calls = 0;
    let result = in_span(alloc, &mut stack, &mut spans, |_stack, _spans, _context| {
        calls += 1;
    });
    match result {
        Err(StartError::Refused(refused)) => {
            assert!(rt; matches!(&refused.cause, SpanCause::NumbersUsedUp));
            assert_eq!(rt; refused.span.name(), "work");
        }
        _ => assert!(rt; false),
    }
    assert_eq!(rt; calls, 0);
    assert_eq!(rt; stack.newest_position(), 0);
    assert!(rt; spans.is_empty());
    Ok(())
}

/// A tracer that is out of memory.
#[derive(Drop)]
struct RefusingTracer;

impl Tracer for RefusingTracer {
    type Span = RecordingSpan;

    ghost may_build = { λ tracer builder parent span. ⊥ };

    fn build_with_context(
        &self,
        alloc: Global,
        builder: SpanBuilder,
        parent: &Context,
    ) -> Result<RecordingSpan, AllocError> {
        let _ = (alloc, builder, parent);
        Err(AllocError)
    }
}

/// A tracer that counts the spans that it builds.
#[derive(Drop)]
struct CountingTracer {
    built: Cell<u64>,
}

impl Tracer for CountingTracer {
    type Span = RecordingSpan;

    ghost may_build = { λ tracer builder parent span. Unit {0} };

    fn build_with_context(
        &self,
        alloc: Global,
        builder: SpanBuilder,
        parent: &Context,
    ) -> Result<RecordingSpan, AllocError> {
        self.built.set(self.built.get().saturating_add(1));
        tracer().build_with_context(alloc, builder, parent)
    }
}

/// Each of the four calls builds one span.
#[test]
fn a_span_is_built_once(rt: HostRuntime) -> Result<(), Fail> {
    let alloc = rt.alloc();
    let mut stack = ContextStack::new(alloc)?;
    let mut spans: Spans<RecordingSpan> = Spans::new(alloc);
    let (stack, spans) = (&mut stack, &mut spans);
    let counting = CountingTracer {
        built: Cell::new(0),
    };
    let parent = Context::new();
    let by_name = counting.in_span(alloc, stack, spans, work(), Run(id_inside));
    assert!(rt; by_name.is_ok() && counting.built.get() == 1);
    let builder = SpanBuilder::from_name(work());
    let by_builder = counting.in_span_with_builder(alloc, stack, spans, builder, Run(id_inside));
    assert!(rt; by_builder.is_ok() && counting.built.get() == 2);
    let below = counting.in_span_with_context(alloc, stack, spans, work(), &parent, Run(id_inside));
    assert!(rt; below.is_ok() && counting.built.get() == 3);
    let builder = SpanBuilder::from_name(work());
    let both = counting.in_span_with_builder_and_context(
        alloc,
        stack,
        spans,
        builder,
        &parent,
        Run(id_inside),
    );
    assert!(rt; both.is_ok() && counting.built.get() == 4);
    assert_eq!(rt; spans.next_number(), 4);
    Ok(())
}

#[test]
fn without_a_span_no_body_runs(rt: HostRuntime) -> Result<(), Fail> {
    let alloc = rt.alloc();
    let mut stack = ContextStack::new(alloc)?;
    let mut spans: Spans<RecordingSpan> = Spans::new(alloc);
    let mut calls = 0;
    let result = RefusingTracer.in_span(
        alloc,
        &mut stack,
        &mut spans,
        work(),
        Run(|stack: &mut ContextStack, spans: &mut Spans<RecordingSpan>, context: Context| {
            let _ = (stack, spans, context);
            calls += 1;
        }),
    );
    assert!(rt; matches!(result, Err(StartError::Build(AllocError))));
    assert_eq!(rt; calls, 0);
    assert_eq!(rt; stack.newest_position(), 0);
    assert_eq!(rt; spans.next_number(), 0);
    Ok(())
}

#[test]
fn a_body_tells_its_span_what_happens(rt: HostRuntime) -> Result<(), Fail> {
    let alloc = rt.alloc();
    let mut stack = ContextStack::new(alloc)?;
    let mut spans = Spans::new(alloc);
    let result = in_span(alloc, &mut stack, &mut spans, |_stack, spans, context| {
        let attribute = KeyValue::new(Key::from("k"), Value::from(true));
        context.span(spans).set_attribute(alloc, attribute)
    });
    match result {
        Ok((told, number)) => {
            assert!(rt; told.is_ok());
            match spans.get(number) {
                Some(span) => {
                    assert_eq!(rt; span.effects().len(), 1);
                    assert!(rt; matches!(&span.effects()[0], Effect::Attribute(_)));
                }
                None => assert!(rt; false),
            }
        }
        Err(_) => assert!(rt; false),
    }
    Ok(())
}

/// A type with neither `Debug` nor `Display`.
#[derive(Drop)]
struct Silent;

/// A start whose span the table refused.
fn refused(cause: SpanCause) -> StartError<Silent> {
    StartError::Refused(SpanRefused {
        span: Silent,
        cause,
    })
}

#[test]
fn a_start_error_prints_the_step_that_failed(rt: HostRuntime) -> Result<(), Fail> {
    let alloc = rt.alloc();
    let rows = [
        (
            StartError::Build(AllocError),
            "span not built: no memory",
            "Build(AllocError)",
        ),
        (
            refused(SpanCause::NumbersUsedUp),
            "span refused: no span number left",
            "Refused(SpanRefused { cause: NumbersUsedUp, .. })",
        ),
        (
            refused(SpanCause::Memory(AllocError)),
            "span refused: no memory",
            "Refused(SpanRefused { cause: Memory(AllocError), .. })",
        ),
    ];
    for (error, text, debug) in rows {
        assert_eq!(rt; error.to_string(alloc)?.as_str(), text);
        assert_eq!(rt; format!(in alloc; "{error:?}")?.as_str(), debug);
    }
    Ok(())
}
