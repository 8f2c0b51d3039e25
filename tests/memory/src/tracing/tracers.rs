//! Calls that start spans.
use crate::lines::Lines;
use crate::tracing::active::stack;
use opentelemetry::StringValue;
use opentelemetry::context::{Context, ContextStack};
use opentelemetry::trace::{SpanBuilder, SpanContext, Tracer};
use otel_examples::recording::RecordingSpan;
use std::alloc::{AllocError, Global};

/// A tracer that allocates for the name of each span.
#[derive(Drop)]
pub struct NamingTracer;

impl Tracer for NamingTracer {
    type Span = RecordingSpan;

    ghost may_build = { λ _ _ _ _. Unit {0} };

    fn build_with_context(
        &self,
        alloc: Global,
        builder: SpanBuilder,
        _parent: &Context,
    ) -> Result<RecordingSpan, AllocError> {
        let name = StringValue::from(builder.name.into_string(alloc)?);
        Ok(RecordingSpan::new(alloc, SpanContext::NONE, name))
    }
}

/// A call on the tracer, or on a builder.
#[derive(Clone, Copy)]
enum Call {
    Start,
    StartWithContext,
    Build,
    BuildWithContext,
    BuilderStart,
    BuilderStartWithContext,
}

/// The scenarios.
const CALLS: [(&str, Call); 6] = [
    ("tracer-start", Call::Start),
    ("tracer-start-with-context", Call::StartWithContext),
    ("tracer-build", Call::Build),
    ("tracer-build-with-context", Call::BuildWithContext),
    ("span-builder-start", Call::BuilderStart),
    (
        "span-builder-start-with-context",
        Call::BuilderStartWithContext,
    ),
];

pub fn play<R: Print>(alloc: Global, lines: &Lines<'_, R>) {
    for (name, call) in CALLS {
        if lines.begin(name) {
            lines.end(of_stack(alloc, lines, call));
        }
    }
}

/// A name.
pub fn name() -> StringValue {
    StringValue::from("s")
}

/// A builder with this name.
pub fn builder() -> SpanBuilder {
    SpanBuilder::from_name(name())
}

fn started(alloc: Global, stack: &ContextStack, call: Call) -> Result<RecordingSpan, AllocError> {
    let tracer = NamingTracer;
    let parent = stack.current();
    match call {
        Call::Start => tracer.start(alloc, stack, name()),
        Call::StartWithContext => tracer.start_with_context(alloc, name(), parent),
        Call::Build => tracer.build(alloc, builder(), stack),
        Call::BuildWithContext => tracer.build_with_context(alloc, builder(), parent),
        Call::BuilderStart => builder().start(alloc, &tracer, stack),
        Call::BuilderStartWithContext => builder().start_with_context(alloc, &tracer, parent),
    }
}

fn of_stack<R: Print>(alloc: Global, lines: &Lines<'_, R>, call: Call) -> Result<(), AllocError> {
    let stack = stack(alloc)?;
    match started(alloc, &stack, call) {
        Ok(span) => lines.answer(&span.name()),
        Err(error) => lines.answer(&error),
    }
    Ok(())
}
