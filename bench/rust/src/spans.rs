//! Operations on spans: contexts with a span in it, and work in a span.
use crate::contexts::{remote, with_entries};
use crate::task::Task;
use opentelemetry::trace::noop::NoopTracer;
use opentelemetry::trace::{
    mark_span_as_active, Span, SpanBuilder, SpanContext, Status, TraceContextExt, TraceState,
    Tracer,
};
use opentelemetry::{Context, KeyValue, SpanId, TraceFlags, TraceId};
use std::borrow::Cow;
use std::hint::black_box;
use std::time::SystemTime;

pub fn play(task: &Task<'_>) -> Option<u64> {
    match task.name {
        "span_into_context" => task.repeat(|| {
            let context = with_span(&Context::new());
            1 + usize::from(black_box(&context).has_active_span())
        }),
        "span_into_entries" => {
            let context = match task.size {
                0 => Context::new(),
                size => with_entries(size),
            };
            task.repeat(|| {
                let context = with_span(black_box(&context));
                1 + usize::from(black_box(&context).has_active_span())
            })
        }
        "span_is_recording" => {
            let context = Context::new().with_span(span_of());
            task.repeat(|| ask(black_box(&context)))
        }
        "span_mark_active" => task.repeat(|| {
            mark();
            1
        }),
        "span_in_span" => in_span(
            task,
            &RecordingTracer {
                trace_id: TraceId::from(7),
            },
        ),
        "span_in_span_noop" => in_span(task, &NoopTracer::new()),
        "span_in_span_noop_remote" => {
            let _guard = remote().attach();
            in_span(task, &NoopTracer::new())
        }
        _ => None,
    }
}

fn in_span<T: Tracer>(task: &Task<'_>, tracer: &T) -> Option<u64>
where
    T::Span: Send + Sync + 'static,
{
    task.repeat(|| 1 + usize::from(work(black_box(tracer))))
}

#[inline(never)]
fn with_span(context: &Context) -> Context {
    context.with_span(span_of())
}

#[inline(never)]
fn ask(context: &Context) -> usize {
    usize::from(context.span().is_recording())
}

#[inline(never)]
fn mark() {
    drop(black_box(mark_span_as_active(span_of())));
}

#[inline(never)]
fn work<T: Tracer>(tracer: &T) -> bool
where
    T::Span: Send + Sync + 'static,
{
    tracer.in_span("work", |context| black_box(&context).has_active_span())
}

#[inline(never)]
pub fn span_of() -> RecordingSpan {
    let context = SpanContext::new(
        TraceId::from(1),
        SpanId::from(1),
        TraceFlags::SAMPLED,
        false,
        TraceState::NONE,
    );
    RecordingSpan::new(context, Cow::Borrowed("work"))
}

/// A recorded effect of a span.
#[allow(dead_code)]
enum Effect {
    Event(Cow<'static, str>, SystemTime, Vec<KeyValue>),
    Attribute(KeyValue),
    Link(SpanContext, Vec<KeyValue>),
}

/// A span with the fields of the port's recording span.
pub struct RecordingSpan {
    context: SpanContext,
    name: Cow<'static, str>,
    effects: Vec<Effect>,
    status: Status,
    ended: Option<SystemTime>,
    recording: bool,
    stops_at_attribute: bool,
    room: u64,
}

impl RecordingSpan {
    fn new(context: SpanContext, name: Cow<'static, str>) -> RecordingSpan {
        RecordingSpan {
            context,
            name,
            effects: Vec::new(),
            status: Status::Unset,
            ended: None,
            recording: true,
            stops_at_attribute: false,
            room: u64::MAX,
        }
    }

    fn keep(&mut self, effect: Effect) {
        if self.room > 0 {
            self.effects.push(effect);
            self.room -= 1;
        }
    }
}

impl Span for RecordingSpan {
    fn add_event_with_timestamp<T: Into<Cow<'static, str>>>(
        &mut self,
        name: T,
        timestamp: SystemTime,
        attributes: Vec<KeyValue>,
    ) {
        self.keep(Effect::Event(name.into(), timestamp, attributes));
    }

    fn span_context(&self) -> &SpanContext {
        &self.context
    }

    fn is_recording(&self) -> bool {
        self.recording
    }

    fn set_attribute(&mut self, attribute: KeyValue) {
        self.keep(Effect::Attribute(attribute));
        self.recording = self.recording && !self.stops_at_attribute;
    }

    fn set_status(&mut self, status: Status) {
        self.status = status;
    }

    fn update_name<T: Into<Cow<'static, str>>>(&mut self, new_name: T) {
        self.name = new_name.into();
    }

    fn add_link(&mut self, span_context: SpanContext, attributes: Vec<KeyValue>) {
        self.keep(Effect::Link(span_context, attributes));
    }

    fn end_with_timestamp(&mut self, timestamp: SystemTime) {
        if self.recording {
            self.ended = Some(timestamp);
            self.recording = false;
        }
    }
}

/// A tracer of such spans: a span has its parent's trace id, or the tracer's, and the next span id.
struct RecordingTracer {
    trace_id: TraceId,
}

impl Tracer for RecordingTracer {
    type Span = RecordingSpan;

    fn build_with_context(&self, builder: SpanBuilder, parent: &Context) -> RecordingSpan {
        let span = parent.span();
        let parent = span.span_context();
        let trace_id = if parent.trace_id() == TraceId::INVALID {
            self.trace_id
        } else {
            parent.trace_id()
        };
        let parent_id = u64::from_be_bytes(parent.span_id().to_bytes());
        let context = SpanContext::new(
            trace_id,
            SpanId::from(parent_id.wrapping_add(1)),
            TraceFlags::SAMPLED,
            false,
            TraceState::NONE,
        );
        RecordingSpan::new(context, builder.name)
    }
}
