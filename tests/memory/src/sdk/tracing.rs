//! One value that traces a program: its builder, its spans and its contexts.
mod changes;
mod ends;
pub mod exports;

use crate::lines::Lines;
use crate::propagators::carriers::{carrier, injected};
use crate::propagators::headers::{TRACE_KEYS, TRACE_TEXTS, carrier_of, with_remote_span};
use crate::sdk::tracer::resource;
use exports::{Tally, has_exported};
use opentelemetry::trace::{Entered, NotEntered, SpanBuilder, TraceState, Tracing};
use opentelemetry::{Context, StringValue};
use otel_propagators::TraceContextPropagator;
use otel_sdk::resource::Resource;
use otel_sdk::trace::{
    Build, CountedIdGenerator, ExporterProcessor, Exports, InMemorySpanExporter, ManualClock,
    OpenPipeline, Sampler, SdkTracing, SpanProcessor, TracingBuilder, WithExporter,
};
use std::alloc::{AllocError, Global};

type Pipeline = OpenPipeline<Sampler, CountedIdGenerator, ManualClock>;

/// The processors of an exporter that takes no memory.
type Tallied = ((), ExporterProcessor<Tally>);

type Builder<X> = TracingBuilder<Sampler, CountedIdGenerator, ManualClock, X>;

/// A value with an exporter that takes no memory.
pub type App = SdkTracing<Pipeline, Tallied>;

/// A value with two of them.
pub type TwoTallies = SdkTracing<Pipeline, (Tallied, ExporterProcessor<Tally>)>;

/// A value with an exporter that takes memory for each span.
pub type KeptApp = SdkTracing<Pipeline, ((), ExporterProcessor<InMemorySpanExporter>)>;

/// The number of attachments that fit into a new stack.
const ROOM: u16 = 8;

pub fn play<R: Print>(rt: HostRuntime, lines: &Lines<'_, R>) {
    if lines.begin("tracing-builder-with-resource") {
        lines.end(with_resource(rt, lines));
    }
    if lines.begin("tracing-builder-build") {
        lines.answer_named("built", app(rt));
    }
    if lines.begin("tracing-builder-build-named") {
        lines.answer_named("built", two(rt));
    }
    spans(rt, lines);
    contexts(rt, lines);
    ends::play(rt, lines);
    changes::play(rt, lines);
    exports::play(rt, lines);
}

fn with_resource<R: Print>(rt: HostRuntime, lines: &Lines<'_, R>) -> Result<(), AllocError> {
    let alloc = rt.alloc();
    let first = Resource::builder_empty(alloc).build();
    let next = resource(alloc)?;
    let builder = TracingBuilder::new(rt).with_resource(first)?;
    lines.answer_named("set", builder.with_resource(next));
    Ok(())
}

/// The builder of a value without processors.
fn counted(rt: HostRuntime) -> Builder<()> {
    TracingBuilder::new(rt)
        .with_sampler(Sampler::AlwaysOn)
        .with_id_generator(CountedIdGenerator::new())
        .with_clock(ManualClock::new(1))
}

/// The builder of a value.
pub fn builder(rt: HostRuntime) -> Builder<Tallied> {
    counted(rt).with_exporter(Tally::new())
}

/// A value without spans.
pub fn app(rt: HostRuntime) -> Result<App, AllocError> {
    builder(rt).build(rt.alloc(), "cart")
}

/// A value without spans, with two exporters.
pub fn two(rt: HostRuntime) -> Result<TwoTallies, AllocError> {
    let builder = builder(rt).with_exporter(Tally::new());
    builder.build_named(rt.alloc(), "cart".into())
}

/// A value without spans, whose exporter takes memory.
pub fn kept(rt: HostRuntime) -> Result<KeptApp, AllocError> {
    let exporter = InMemorySpanExporter::new(rt.alloc());
    counted(rt)
        .with_exporter(exporter)
        .build(rt.alloc(), "cart")
}

/// Enters a span of the set-up.
pub fn enter(app: &mut impl Tracing) -> Result<Entered, AllocError> {
    match app.enter("s") {
        Ok(entered) => Ok(entered),
        Err(_) => Err(AllocError),
    }
}

/// A value whose stack has to grow at the next attach.
fn crowded(rt: HostRuntime) -> Result<App, AllocError> {
    let mut app = app(rt)?;
    for _ in 0..ROOM {
        app.attach(Context::new())?;
    }
    Ok(app)
}

fn spans<R: Print>(rt: HostRuntime, lines: &Lines<'_, R>) {
    if lines.begin("tracing-enter") {
        lines.end(entered(lines, app(rt), |app| app.enter("s")));
    }
    if lines.begin("tracing-enter-with") {
        let builder = SpanBuilder::from_name(StringValue::from("s"));
        let enter_with = |app: &mut App| app.enter_with(builder);
        lines.end(entered(lines, crowded(rt), enter_with));
    }
    if lines.begin("tracing-start-many") {
        lines.end(start_many(rt, lines));
    }
    if lines.begin("tracing-in-span") {
        lines.end(in_span(rt, lines));
    }
    if lines.begin("tracing-try-in-span") {
        lines.end(try_in_span(rt, lines));
    }
}

/// Enters a span by this call. It is then open and exported later. After an error nothing changed:
/// no span is open, queued or dropped.
fn entered<R: Print, F: FnOnce(&mut App) -> Result<Entered, NotEntered> + Drop>(
    lines: &Lines<'_, R>,
    app: Result<App, AllocError>,
    call: F,
) -> Result<(), AllocError> {
    let mut app = app?;
    let answer = call(&mut app);
    let open = if answer.is_ok() { 1 } else { 0 };
    lines.answer_named("entered", answer);
    let is_open = app.open_spans() == open && app.context().has_active_span() == (open == 1);
    let is_idle = app.unrecorded() == 0 && app.processors().queued_spans() == 0;
    lines.due(is_open && is_idle && has_exported(&mut app, open, 0));
    Ok(())
}

/// The number of spans that are open together. The memory that is reserved for the ends grows while
/// they start.
const MANY: usize = 20;

/// Starts of many spans. A start that can't reserve memory is refused, and changes nothing. The
/// others end without memory, and are exported later.
fn start_many<R: Print>(rt: HostRuntime, lines: &Lines<'_, R>) -> Result<(), AllocError> {
    let mut app = app(rt)?;
    let mut refused = None;
    let mut started = 0;
    for _ in 0..MANY {
        match app.start("s") {
            Ok(_) => started += 1,
            Err(error) => refused = Some(error),
        }
        if app.open_spans() != started {
            refused = Some(NotEntered::NumbersUsedUp);
        }
    }
    match refused {
        Some(error) => lines.answer(&error),
        None => lines.answer(&started),
    }
    lines.due(has_exported(&mut app, started, 0));
    Ok(())
}

/// Prints whether everything was recorded.
fn recorded<R: Print>(lines: &Lines<'_, R>, app: &App) {
    if app.unrecorded() == 0 {
        lines.answer(&"recorded");
    } else {
        lines.answer(&AllocError);
    }
}

/// Work that runs in a span or, after a failed request, without one.
fn in_span<R: Print>(rt: HostRuntime, lines: &Lines<'_, R>) -> Result<(), AllocError> {
    let mut app = app(rt)?;
    let open = app.in_span("s", |app: &mut App| app.open_spans());
    recorded(lines, &app);
    let is_counted = open <= 1 && app.unrecorded() < 2 && (open == 1) == (app.unrecorded() == 0);
    lines.due(is_counted && app.open_spans() == 0 && has_exported(&mut app, open, 0));
    Ok(())
}

/// Work that fails. The caller gets its error in any case.
fn try_in_span<R: Print>(rt: HostRuntime, lines: &Lines<'_, R>) -> Result<(), AllocError> {
    let mut app = app(rt)?;
    let out = app.try_in_span("s", |_: &mut App| -> Result<u8, u16> { Err(402) });
    recorded(lines, &app);
    let unrecorded = app.unrecorded();
    let is_flushed = app.flush().is_ok();
    let tally = app.processors().1.exporter();
    let is_due = if unrecorded == 0 {
        tally.spans == 1 && tally.parts == 1
    } else {
        unrecorded == 1 && tally.spans <= 1 && tally.parts == 0
    };
    lines.due(out == Err(402) && app.open_spans() == 0 && is_flushed && is_due);
    Ok(())
}

fn contexts<R: Print>(rt: HostRuntime, lines: &Lines<'_, R>) {
    if lines.begin("tracing-attach") {
        lines.end(attach(rt, lines));
    }
    if lines.begin("tracing-detach") {
        lines.end(detach(rt, lines));
    }
    if lines.begin("tracing-receive") {
        lines.end(receive(rt, lines));
    }
    if lines.begin("tracing-send") {
        lines.end(send(rt, lines));
    }
}

fn caller(alloc: Global) -> Result<Context, AllocError> {
    with_remote_span(alloc, TraceState::NONE)
}

fn attach<R: Print>(rt: HostRuntime, lines: &Lines<'_, R>) -> Result<(), AllocError> {
    let mut app = crowded(rt)?;
    let answer = app.attach(caller(rt.alloc())?);
    let is_attached = answer.is_ok();
    lines.answer_named("attached", answer);
    lines.due(app.context().has_active_span() == is_attached);
    Ok(())
}

fn detach<R: Print>(rt: HostRuntime, lines: &Lines<'_, R>) -> Result<(), AllocError> {
    let mut app = app(rt)?;
    let attached = app.attach(caller(rt.alloc())?)?;
    app.detach(attached);
    lines.free("Tracing::detach", &app.context().has_active_span());
    Ok(())
}

fn receive<R: Print>(rt: HostRuntime, lines: &Lines<'_, R>) -> Result<(), AllocError> {
    let mut app = crowded(rt)?;
    let propagator = TraceContextPropagator::new(rt.alloc())?;
    let carrier = carrier_of(rt.alloc(), &TRACE_TEXTS)?;
    let answer = app.receive(&propagator, &carrier);
    let is_attached = answer.is_ok();
    lines.answer_named("received", answer);
    lines.due(app.context().has_active_span() == is_attached);
    Ok(())
}

fn send<R: Print>(rt: HostRuntime, lines: &Lines<'_, R>) -> Result<(), AllocError> {
    let mut app = app(rt)?;
    enter(&mut app)?;
    let propagator = TraceContextPropagator::new(rt.alloc())?;
    let mut carrier = carrier(rt.alloc())?;
    let answer = app.send(&propagator, &mut carrier);
    injected(lines, answer, &carrier, &TRACE_KEYS);
    Ok(())
}
