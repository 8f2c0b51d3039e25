//! The value that traces on one thread.
mod keeping;
mod noop;
mod orders;
mod plain;

use keeping::Keeping;
use opentelemetry::time::CountedClock;
use opentelemetry::trace::{LocalTracing, NotEntered, Span, SpanId, Status, TracerSource, Tracing};
use opentelemetry::{Context, Key, KeyValue, StringValue, Value};
use otel_examples::recording::{Effect, RecordingSpan};
use std::alloc::Global;
use std::test::Fail;
use test_support::tracer;

type App = LocalTracing<Keeping>;

fn app(alloc: Global) -> Result<App, Fail> {
    Ok(LocalTracing::new(alloc, Keeping::new(alloc, 0))?)
}

/// The names of the spans that have ended, in order.
fn ended(alloc: Global, app: &App) -> Result<String, Fail> {
    let mut names = String::new(alloc);
    for span in &app.source().taken {
        names.push_str(span.name())?;
        names.push(' ')?;
    }
    Ok(names)
}

fn attribute() -> KeyValue {
    KeyValue::new(Key::from("k"), Value::I64(1))
}

/// Attaches contexts until no position is left, so that no span is entered any more.
fn fill(app: &mut App) -> Result<(), Fail> {
    for _ in 0..65534 {
        app.attach(Context::new())?;
    }
    Ok(())
}

#[test]
fn orders_are_as_in_a_plain_model(rt: HostRuntime) -> Result<(), Fail> {
    for seed in 0..40 {
        assert_eq!(rt; orders::played(rt.alloc(), seed)?, "", "seed {seed}");
    }
    Ok(())
}

#[test]
fn work_runs_in_a_span(rt: HostRuntime) -> Result<(), Fail> {
    let alloc = rt.alloc();
    let mut app = app(alloc)?;
    let open = app.in_span("serve", |app: &mut App| {
        let inner = app.in_span("price", |app: &mut App| app.open_spans());
        (inner, app.open_spans())
    });
    assert_eq!(rt; open, (2, 1));
    assert_eq!(rt; ended(alloc, &app)?.as_str(), "price serve ");
    let taken = app.source().taken.as_slice();
    assert_eq!(rt; (taken[0].ended(), taken[1].ended()), (Some(3), Some(4)));
    assert!(rt; !app.context().has_active_span());
    assert_eq!(rt; app.unrecorded(), 0);
    Ok(())
}

#[test]
fn work_that_leaves_spans_open_ends_them(rt: HostRuntime) -> Result<(), Fail> {
    let alloc = rt.alloc();
    let mut app = app(alloc)?;
    let started = app.in_span("serve", |app: &mut App| {
        drop(app.enter("part"));
        app.start("task")
    })?;
    assert_eq!(rt; ended(alloc, &app)?.as_str(), "part serve ");
    assert_eq!(rt; app.open_spans(), 1);
    app.end(&started);
    assert_eq!(rt; ended(alloc, &app)?.as_str(), "part serve task ");
    Ok(())
}

#[test]
fn work_runs_without_a_span_if_there_is_no_room(rt: HostRuntime) -> Result<(), Fail> {
    let alloc = rt.alloc();
    let mut app = app(alloc)?;
    fill(&mut app)?;
    assert!(rt; matches!(app.enter("serve"), Err(NotEntered::PositionsUsedUp)));
    assert_eq!(rt; app.in_span("serve", |app: &mut App| app.open_spans()), 0);
    assert_eq!(rt; app.unrecorded(), 1);
    let out = app.try_in_span("pay", |_: &mut App| -> Result<u8, u16> { Err(402) });
    assert!(rt; out == Err(402));
    assert_eq!(rt; app.unrecorded(), 2);
    // A span that isn't made current takes no position.
    let task = app.start("task")?;
    app.end(&task);
    assert_eq!(rt; ended(alloc, &app)?.as_str(), "task ");
    Ok(())
}

/// Whether the span has the error 402 as an event and in its status.
fn shows_402(span: &RecordingSpan) -> bool {
    let [Effect::Event(name, _, attributes)] = span.effects() else {
        return false;
    };
    let text = StringValue::from("402");
    let [message] = attributes.as_slice() else {
        return false;
    };
    let is_told = message.key.as_str() == "exception.message"
        && matches!(&message.value, Value::String(value) if *value == text);
    name.as_str() == "exception" && is_told && *span.status() == Status::error(text)
}

#[test]
fn work_that_fails_shows_why(rt: HostRuntime) -> Result<(), Fail> {
    let alloc = rt.alloc();
    let mut app = app(alloc)?;
    let out = app.try_in_span("serve", |app: &mut App| -> Result<u8, u16> {
        drop(app.try_in_span("pay", |_: &mut App| -> Result<u8, u16> { Err(402) }));
        Ok(7)
    });
    assert!(rt; out == Ok(7));
    let [pay, serve] = app.source().taken.as_slice() else {
        return Err(Fail::from("other spans"));
    };
    assert!(rt; shows_402(pay));
    assert!(rt; serve.effects().is_empty() && *serve.status() == Status::Unset);
    assert_eq!(rt; app.unrecorded(), 0);
    Ok(())
}

/// The error goes to the span of the work, also if another one is current at its end.
#[test]
fn the_failure_of_work_is_in_its_own_span(rt: HostRuntime) -> Result<(), Fail> {
    let mut app = app(rt.alloc())?;
    let out = app.try_in_span("pay", |app: &mut App| -> Result<u8, u16> {
        drop(app.enter("left open"));
        Err(402)
    });
    assert!(rt; out == Err(402));
    let [left_open, pay] = app.source().taken.as_slice() else {
        return Err(Fail::from("other spans"));
    };
    assert!(rt; left_open.effects().is_empty() && shows_402(pay));
    Ok(())
}

#[test]
fn a_failure_that_is_not_recorded_is_counted(rt: HostRuntime) -> Result<(), Fail> {
    let alloc = rt.alloc();
    let mut source = Keeping::new(alloc, 0);
    source.fails = true;
    let mut app = LocalTracing::new(alloc, source)?;
    let out = app.try_in_span("pay", |_: &mut App| -> Result<u8, u16> { Err(402) });
    assert!(rt; out == Err(402));
    assert_eq!(rt; app.unrecorded(), 1);
    let serve = app.enter("serve")?;
    assert!(rt; app.record_error(&402).is_err());
    app.exit(serve);
    assert_eq!(rt; app.unrecorded(), 1);
    for span in &app.source().taken {
        assert!(rt; span.effects().is_empty() && *span.status() == Status::Unset);
    }
    Ok(())
}

/// The source is asked for memory for the spans that are open and the next one.
#[test]
fn no_span_begins_that_could_not_end(rt: HostRuntime) -> Result<(), Fail> {
    let alloc = rt.alloc();
    let mut source = Keeping::new(alloc, 0);
    source.most = 2;
    let mut app = LocalTracing::new(alloc, source)?;
    let serve = app.enter("serve")?;
    let task = app.start("task")?;
    assert!(rt; matches!(app.enter("price"), Err(NotEntered::Memory(_))));
    assert!(rt; matches!(app.start("more"), Err(NotEntered::Memory(_))));
    assert_eq!(rt; app.in_span("pay", |app: &mut App| app.open_spans()), 2);
    assert_eq!(rt; (app.open_spans(), app.unrecorded()), (2, 1));
    assert_eq!(rt; app.context().span_number(), Some(0));
    app.end(&task);
    assert_eq!(rt; app.in_span("pay", |app: &mut App| app.open_spans()), 2);
    app.exit(serve);
    assert_eq!(rt; ended(alloc, &app)?.as_str(), "task pay serve ");
    assert_eq!(rt; app.unrecorded(), 1);
    Ok(())
}

#[test]
fn changes_reach_the_current_span(rt: HostRuntime) -> Result<(), Fail> {
    let alloc = rt.alloc();
    let mut app = app(alloc)?;
    app.set_attribute(attribute())?;
    app.add_event(StringValue::from("lost"), Vec::new(alloc))?;
    let serve = app.enter("serve")?;
    app.set_attribute(attribute())?;
    app.add_event(StringValue::from("e"), Vec::new(alloc))?;
    app.add_link(test_support::span_context(5), Vec::new(alloc))?;
    app.record_error(&402)?;
    app.set_status(Status::Ok)?;
    app.update_name(StringValue::from("renamed"))?;
    let price = app.enter("price")?;
    app.exit(price);
    app.exit(serve);
    app.set_attribute(attribute())?;
    let [price, serve] = app.source().taken.as_slice() else {
        return Err(Fail::from("other spans"));
    };
    assert!(rt; price.effects().is_empty());
    assert_eq!(rt; serve.effects().len(), 4);
    assert!(rt; matches!(&serve.effects()[1], Effect::Event(name, 2, _) if name.as_str() == "e"));
    assert!(rt; *serve.status() == Status::Ok && serve.name() == "renamed");
    Ok(())
}

#[test]
fn a_context_of_another_value_has_no_effect(rt: HostRuntime) -> Result<(), Fail> {
    let alloc = rt.alloc();
    let mut app = app(alloc)?;
    let mut other = LocalTracing::new(alloc, Keeping::new(alloc, 100))?;
    let (own, foreign) = (app.start("own")?, other.start("foreign")?);
    assert_eq!(rt; own.span_number(), foreign.span_number());
    app.end(&foreign);
    assert_eq!(rt; app.open_spans(), 1);
    let turn = app.attach(foreign.clone()?)?;
    app.set_attribute(attribute())?;
    // A span that is entered there is in the other one's trace, and inside no span of its own.
    let part = app.enter("part")?;
    app.end(&foreign);
    assert_eq!(rt; app.open_spans(), 2);
    app.exit(part);
    app.detach(turn);
    app.end(&Context::new());
    app.end(&own);
    app.end(&own);
    let [part, own] = app.source().taken.as_slice() else {
        return Err(Fail::from("other spans"));
    };
    let trace = foreign.span_context().trace_id();
    assert_eq!(rt; part.span_context().trace_id(), trace);
    assert!(rt; own.effects().is_empty());
    assert_eq!(rt; other.open_spans(), 1);
    Ok(())
}

#[test]
fn a_value_traces_over_any_tracer(rt: HostRuntime) -> Result<(), Fail> {
    let alloc = rt.alloc();
    let (tracer, clock) = (tracer(), CountedClock::new(2));
    let source = TracerSource::new(tracer, clock);
    let mut tracing = LocalTracing::new(alloc, source)?;
    let serve = tracing.enter("serve")?;
    assert!(rt; !tracing.is_disabled());
    tracing.enter("price")?;
    let task = tracing.start("task")?;
    // The ids show which span is the parent.
    assert_eq!(rt; task.span_context().span_id(), SpanId::from(3));
    assert_eq!(rt; tracing.context().span_context().span_id(), SpanId::from(2));
    tracing.exit(serve);
    assert_eq!(rt; tracing.open_spans(), 1);
    tracing.enter("next")?;
    assert_eq!(rt; tracing.end_all(), 2);
    assert_eq!(rt; tracing.open_spans(), 0);
    assert!(rt; !tracing.context().has_active_span());
    Ok(())
}

fn price(tracing: &mut impl Tracing) -> Result<(), NotEntered> {
    let price = tracing.enter("price")?;
    tracing.exit(price);
    Ok(())
}

#[test]
fn a_library_enters_a_span(rt: HostRuntime) -> Result<(), Fail> {
    let source = TracerSource::new(tracer(), CountedClock::new(2));
    let mut tracing = LocalTracing::new(rt.alloc(), source)?;
    assert!(rt; price(&mut tracing).is_ok());
    assert_eq!(rt; tracing.open_spans(), 0);
    Ok(())
}
