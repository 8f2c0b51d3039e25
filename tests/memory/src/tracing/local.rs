//! A value that traces over any tracer, and one that does nothing.
use crate::lines::Lines;
use crate::tracing::spans::attribute;
use crate::tracing::tracers::{NamingTracer, builder};
use opentelemetry::StringValue;
use opentelemetry::context::Context;
use opentelemetry::time::ManualClock;
use opentelemetry::trace::{
    LocalTracing, NoopSource, NoopTracing, SpanContext, SpanSource, Status, TracerSource, Tracing,
};
use std::alloc::{AllocError, Global};

pub fn play<R: Print>(alloc: Global, lines: &Lines<'_, R>) {
    if lines.begin("local-tracing-new") {
        lines.answer_named("made", noop(alloc));
    }
    if lines.begin("tracer-source-build") {
        let mut source = source();
        let answer = source.build(alloc, builder(), &Context::new());
        lines.answer_of(answer.map(|span| span.effects().len()));
        lines.free_ok("TracerSource::reserve", source.reserve(1));
    }
    if lines.begin("local-tracing-enter") {
        lines.end(enter(alloc, lines));
    }
    for (name, call) in CALLS {
        if lines.begin(name) {
            lines.end(in_span(alloc, lines, call));
        }
    }
    if lines.begin("noop-source") {
        let mut source = NoopSource::new();
        let answer = source.build(alloc, builder(), &Context::new());
        lines.free_ok("NoopSource::build", answer);
        lines.free_ok("NoopSource::reserve", source.reserve(1));
    }
    if lines.begin("noop-tracing-spans") {
        lines.end(spans(alloc, lines));
    }
    if lines.begin("noop-tracing-changes") {
        lines.end(changes(alloc, lines));
    }
}

fn noop(alloc: Global) -> Result<NoopTracing, AllocError> {
    LocalTracing::new(alloc, NoopSource::new())
}

/// A source whose tracer takes memory for each name.
fn source() -> TracerSource<NamingTracer, ManualClock> {
    TracerSource::new(NamingTracer, ManualClock::new(1))
}

/// An entry inside an open span. After an error that one is the current one, and no other is open.
fn enter<R: Print>(alloc: Global, lines: &Lines<'_, R>) -> Result<(), AllocError> {
    let mut tracing = LocalTracing::new(alloc, source())?;
    if tracing.enter("outer").is_err() {
        return Err(AllocError);
    }
    let answer = tracing.enter_with(builder());
    let inner = if answer.is_ok() { 1 } else { 0 };
    lines.answer_named("entered", answer);
    let number = tracing.context().span_number();
    lines.due(number == Some(inner) && tracing.open_spans() as u64 == 1 + inner);
    Ok(())
}

fn spans<R: Print>(alloc: Global, lines: &Lines<'_, R>) -> Result<(), AllocError> {
    let mut tracing = noop(alloc)?;
    if let Ok(entered) = tracing.enter("s") {
        lines.free("Tracing::enter", &"ok");
        tracing.exit(entered);
        lines.free("Tracing::exit", &tracing.open_spans());
    }
    lines.free_ok("Tracing::enter_with", tracing.enter_with(builder()));
    if let Ok(context) = tracing.start("s") {
        lines.free("Tracing::start", &"ok");
        tracing.end(&context);
        lines.free("Tracing::end", &tracing.open_spans());
    }
    lines.free_ok("Tracing::start_with", tracing.start_with(builder()));
    let answer = tracing.start_under(&Context::new(), builder());
    lines.free_ok("Tracing::start_under", answer);
    let open = tracing.in_span("s", |tracing: &mut NoopTracing| tracing.open_spans());
    lines.due(open == 0 && tracing.unrecorded() == 0);
    Ok(())
}

fn changes<R: Print>(alloc: Global, lines: &Lines<'_, R>) -> Result<(), AllocError> {
    let mut tracing = noop(alloc)?;
    lines.free_ok("Tracing::set_attribute", tracing.set_attribute(attribute()));
    let answer = tracing.add_event(StringValue::from("e"), Vec::new(alloc));
    lines.free_ok("Tracing::add_event", answer);
    let answer = tracing.add_link(SpanContext::NONE, Vec::new(alloc));
    lines.free_ok("Tracing::add_link", answer);
    lines.free_ok("Tracing::record_error", tracing.record_error(&402));
    lines.free_ok("Tracing::set_status", tracing.set_status(Status::Ok));
    let answer = tracing.update_name(StringValue::from("n"));
    lines.free_ok("Tracing::update_name", answer);
    Ok(())
}

/// A call in an open span.
#[derive(Clone, Copy)]
enum Call {
    Attach,
    Start,
    StartWith,
    StartUnder,
    SetAttribute,
    Set,
    AddEvent,
    AddLink,
    RecordError,
}

const CALLS: [(&str, Call); 9] = [
    ("local-tracing-attach", Call::Attach),
    ("local-tracing-start", Call::Start),
    ("local-tracing-start-with", Call::StartWith),
    ("local-tracing-start-under", Call::StartUnder),
    ("local-tracing-set-attribute", Call::SetAttribute),
    ("local-tracing-set", Call::Set),
    ("local-tracing-add-event", Call::AddEvent),
    ("local-tracing-add-link", Call::AddLink),
    ("local-tracing-record-error", Call::RecordError),
];

/// Makes the call. Returns the number of spans that it started.
fn make(alloc: Global, tracing: &mut impl Tracing, call: Call) -> Result<usize, AllocError> {
    let started = match call {
        Call::Attach => {
            // The first ones need no memory.
            for _ in 0..64 {
                tracing.attach(Context::new())?;
            }
            return Ok(0);
        }
        Call::Start => tracing.start("s"),
        Call::StartWith => tracing.start_with(builder()),
        Call::StartUnder => tracing.start_under(&Context::new(), builder()),
        Call::SetAttribute => return tracing.set_attribute(attribute()).map(|_| 0),
        Call::Set => return tracing.set("k", "v").map(|_| 0),
        Call::AddEvent => {
            let answer = tracing.add_event(StringValue::from("e"), Vec::new(alloc));
            return answer.map(|_| 0);
        }
        Call::AddLink => {
            let answer = tracing.add_link(SpanContext::NONE, Vec::new(alloc));
            return answer.map(|_| 0);
        }
        Call::RecordError => return tracing.record_error(&402).map(|_| 0),
    };
    started.map(|_| 1).map_err(|_| AllocError)
}

/// The call in an open span. After an error no other span is open.
fn in_span<R: Print>(alloc: Global, lines: &Lines<'_, R>, call: Call) -> Result<(), AllocError> {
    let mut tracing = LocalTracing::new(alloc, source())?;
    if tracing.enter("outer").is_err() {
        return Err(AllocError);
    }
    let answer = make(alloc, &mut tracing, call);
    let started = match &answer {
        Ok(started) => *started,
        Err(_) => 0,
    };
    lines.answer_named("done", answer);
    lines.due(tracing.open_spans() == 1 + started);
    Ok(())
}
