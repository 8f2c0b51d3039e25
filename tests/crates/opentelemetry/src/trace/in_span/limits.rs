//! The greatest position and the greatest number of a span, one below, at and above, with each call
//! that runs a body in a span.
use opentelemetry::StringValue;
use opentelemetry::context::{Context, ContextStack, HasCurrent};
use opentelemetry::trace::{Run, Span, SpanBuilder, SpanCause, Spans, StartError, Tracer};
use otel_examples::recording::RecordingSpan;
use std::alloc::{AllocError, Global};
use std::test::Fail;
use test_support::{NUMBERS, POSITIONS, filled, name_of, span_context, tracer};

/// The calls that run a body in a span.
#[derive(Clone, Copy, Debug)]
enum InSpan {
    Name,
    NameAndContext,
    Builder,
    BuilderAndContext,
}

const IN_SPANS: &[InSpan] = &[
    InSpan::Name,
    InSpan::NameAndContext,
    InSpan::Builder,
    InSpan::BuilderAndContext,
];

/// The state that a body sees: the newest position, the name of the current context, whether that
/// has a span, and the number of its own span.
#[derive(Drop, Debug, PartialEq)]
struct Inside {
    newest: u16,
    name: String,
    has_span: bool,
    number: Option<u64>,
}

fn look(alloc: Global, stack: &ContextStack, context: &Context) -> Result<Inside, AllocError> {
    Ok(Inside {
        newest: stack.newest_position(),
        name: String::from_str(alloc, name_of(stack.current()))?,
        has_span: stack.current().has_active_span(),
        number: context.span_number(),
    })
}

/// The state that the body saw and the number of the span, or the error.
type Ran = Result<(Result<Inside, AllocError>, u64), StartError<RecordingSpan>>;

fn in_span(
    alloc: Global,
    way: InSpan,
    stack: &mut ContextStack,
    spans: &mut Spans<RecordingSpan>,
) -> Ran {
    let tracer = tracer();
    let name = StringValue::from("work");
    let parent = Context::new();
    let body = Run(|stack: &mut ContextStack, spans: &mut Spans<RecordingSpan>, context: Context| {
        let _ = spans;
        look(alloc, stack, &context)
    });
    match way {
        InSpan::Name => tracer.in_span(alloc, stack, spans, name, body),
        InSpan::NameAndContext => {
            tracer.in_span_with_context(alloc, stack, spans, name, &parent, body)
        }
        InSpan::Builder => {
            tracer.in_span_with_builder(alloc, stack, spans, SpanBuilder::from_name(name), body)
        }
        InSpan::BuilderAndContext => {
            let builder = SpanBuilder::from_name(name);
            tracer.in_span_with_builder_and_context(alloc, stack, spans, builder, &parent, body)
        }
    }
}

#[test]
fn a_body_runs_at_the_last_position_and_above(rt: HostRuntime) -> Result<(), Fail> {
    for (newest, position) in POSITIONS {
        // Each variant leaves the stack unchanged.
        let mut stack = filled(rt.alloc(), *newest)?;
        for way in IN_SPANS {
            let mut spans = Spans::new(rt.alloc());
            let Ok((Ok(inside), number)) = in_span(rt.alloc(), *way, &mut stack, &mut spans) else {
                panic!(&rt; "{way:?}: no room")
            };
            let is_attached = *position != 65535;
            assert_eq!(rt; inside.newest, (*newest).max(*position % 65535), "{way:?}");
            assert_eq!(rt; inside.has_span, is_attached, "{way:?}");
            assert!(rt; is_attached || inside.name.as_str() == "below", "{way:?}");
            assert_eq!(rt; inside.number, Some(number), "{way:?}");
            assert_eq!(rt; stack.newest_position(), *newest, "{way:?}");
            assert_eq!(rt; name_of(stack.current()), "below", "{way:?}");
            assert_eq!(rt; spans.len(), 1, "{way:?}");
        }
    }
    Ok(())
}

#[test]
fn a_body_gets_the_last_number(rt: HostRuntime) -> Result<(), Fail> {
    for way in IN_SPANS {
        for (first, is_given, next) in NUMBERS {
            let mut stack = filled(rt.alloc(), 1)?;
            let mut spans = Spans::starting_at(rt.alloc(), *first);
            match in_span(rt.alloc(), *way, &mut stack, &mut spans) {
                Ok((_, number)) => assert!(rt; *is_given && number == *first, "{way:?} at {first}"),
                Err(StartError::Refused(refused)) => {
                    assert!(rt; !*is_given, "{way:?} at {first}");
                    assert!(rt; matches!(&refused.cause, SpanCause::NumbersUsedUp));
                    // The tracer made the span: its id is the one after 0, the id of no parent.
                    assert_eq!(rt;
                        refused.span.span_context().span_id(),
                        span_context(1).span_id()
                    );
                }
                Err(StartError::Build(_)) => assert!(rt; false, "{way:?} at {first}"),
            }
            assert_eq!(rt; spans.next_number(), *next, "{way:?} at {first}");
            assert_eq!(rt; spans.len(), if *is_given { 1 } else { 0 });
            assert_eq!(rt; spans.get(*first).is_some(), *is_given);
            assert_eq!(rt; stack.newest_position(), 1);
            assert_eq!(rt; name_of(stack.current()), "below");
        }
    }
    Ok(())
}
