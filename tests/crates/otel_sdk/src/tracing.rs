//! Programs that trace with one value.
use crate::processor::Planned;
use opentelemetry::trace::{
    SpanBuilder, SpanContext, SpanId, Status, TraceFlags, TraceId, TraceState, Tracing,
};
use opentelemetry::{Context, Key, KeyValue, StringValue, Value};
use otel_sdk::error::OTelSdkError;
use otel_sdk::trace::{
    BatchConfigBuilder, Build, Clock, CountedIdGenerator, ExporterProcessor, Exports,
    FinishedSpans, InMemorySpanExporter, OpenPipeline, ParentBased, Sampler, SdkTracing, SpanData,
    SpanExporter, SpanProcessor, TracingBuilder, WithExporter,
};
use std::alloc::AllocError;
use std::cell::Cell;
use std::test::Fail;

/// A clock that shows 1, 2, ..
#[derive(Drop)]
struct Ticks {
    latest: Cell<u64>,
}

impl Clock for Ticks {
    fn now(&self) -> u64 {
        let now = self.latest.get().saturating_add(1);
        self.latest.set(now);
        now
    }
}

type Pipeline = OpenPipeline<ParentBased<Sampler>, CountedIdGenerator, Ticks>;

type Traced<E> = SdkTracing<Pipeline, ((), ExporterProcessor<E>)>;

type App = Traced<InMemorySpanExporter>;

/// Traces with counted ids and a clock that shows 1, 2, .., up to 2 spans in the queue.
fn tracing<E: SpanExporter>(rt: HostRuntime, exporter: E) -> Result<Traced<E>, Fail> {
    let config = BatchConfigBuilder::default().with_max_queue_size(2).build();
    Ok(
        TracingBuilder::new(rt)
            .with_id_generator(CountedIdGenerator::new())
            .with_clock(Ticks {
                latest: Cell::new(0),
            })
            .with_batch_config(config)
            .with_exporter(exporter)
            .build(rt.alloc(), "cart")?,
    )
}

fn app(rt: HostRuntime) -> Result<App, Fail> {
    tracing(rt, InMemorySpanExporter::new(rt.alloc()))
}

/// The spans that were exported.
fn finished(app: &App) -> Result<Vec<SpanData>, AllocError> {
    app.processors().1.exporter().get_finished_spans()
}

fn last(id: SpanId) -> u8 {
    id.to_bytes()[7]
}

/// The spans that were exported, after a flush: the name of each, the ids of its parent and of
/// itself, its start and its end.
fn exported(rt: HostRuntime, app: &mut App) -> Result<String, Fail> {
    app.flush()?;
    let mut text = String::new(rt.alloc());
    for span in &finished(app)? {
        let (parent, own) = (last(span.parent_span_id), last(span.span_context.span_id()));
        let name = span.name.as_str();
        let line = format!(in rt.alloc();
            "{name} {parent}-{own} {}-{};",
            span.start_time, span.end_time
        )?;
        text.push_str(line.as_str())?;
    }
    Ok(text)
}

#[test]
fn counted_spans_are_the_same_each_time(rt: HostRuntime) -> Result<(), Fail> {
    let builder = TracingBuilder::new(rt).counted(5);
    let exporter = InMemorySpanExporter::new(rt.alloc());
    let mut tracing = builder.with_exporter(exporter).build(rt.alloc(), "cart")?;
    let serve = tracing.enter("serve")?;
    let price = tracing.enter("price")?;
    tracing.exit(price);
    tracing.exit(serve);
    tracing.flush()?;
    let spans = tracing.processors().1.exporter().get_finished_spans()?;
    assert_eq!(rt; spans.len(), 2);
    let (price, serve) = (&spans[0], &spans[1]);
    assert_eq!(rt;
        (
            last(serve.parent_span_id),
            last(serve.span_context.span_id())
        ),
        (0, 1)
    );
    assert_eq!(rt;
        (
            last(price.parent_span_id),
            last(price.span_context.span_id())
        ),
        (1, 2)
    );
    assert_eq!(rt;
        (
            price.start_time - serve.start_time,
            price.end_time - serve.start_time
        ),
        (5, 10)
    );
    assert_eq!(rt; serve.end_time - serve.start_time, 15);
    Ok(())
}

#[test]
fn spans_nest(rt: HostRuntime) -> Result<(), Fail> {
    let mut app = app(rt)?;
    let open = app.in_span("serve", |app: &mut App| {
        app.in_span("price", |app: &mut App| app.open_spans())
    });
    assert_eq!(rt; open, 2);
    assert_eq!(rt; app.open_spans(), 0);
    assert_eq!(rt;
        exported(rt, &mut app)?.as_str(),
        "price 1-2 2-3;serve 0-1 1-4;"
    );
    assert_eq!(rt; app.shutdown()?, 0);
    Ok(())
}

#[test]
fn an_exit_ends_the_spans_inside(rt: HostRuntime) -> Result<(), Fail> {
    let mut app = app(rt)?;
    let outer = app.enter("outer")?;
    let inner = app.enter("inner")?;
    app.exit(outer);
    app.exit(inner);
    app.exit(outer);
    let next = app.enter("next")?;
    app.exit(inner);
    assert_eq!(rt; app.open_spans(), 1);
    assert_eq!(rt;
        exported(rt, &mut app)?.as_str(),
        "inner 1-2 2-3;outer 0-1 1-3;"
    );
    app.exit(next);
    let all = "inner 1-2 2-3;outer 0-1 1-3;next 0-3 4-5;";
    assert_eq!(rt; exported(rt, &mut app)?.as_str(), all);
    Ok(())
}

#[test]
fn a_shutdown_ends_open_spans_and_counts_them(rt: HostRuntime) -> Result<(), Fail> {
    let mut app = app(rt)?;
    app.enter("outer")?;
    app.enter("inner")?;
    assert_eq!(rt; app.shutdown()?, 2);
    assert_eq!(rt; app.open_spans(), 0);
    assert!(rt; matches!(app.shutdown(), Err(OTelSdkError::AlreadyShutdown)));
    assert!(rt; matches!(app.flush(), Err(OTelSdkError::AlreadyShutdown)));
    Ok(())
}

#[test]
fn spans_that_end_after_a_shutdown_are_dropped_and_counted(rt: HostRuntime) -> Result<(), Fail> {
    let mut app = app(rt)?;
    assert_eq!(rt; app.shutdown()?, 0);
    app.in_span("late", |_: &mut App| ());
    assert_eq!(rt; app.processors().dropped_spans(), 1);
    assert_eq!(rt; app.processors().queued_spans(), 0);
    app.enter("later")?;
    assert!(rt; matches!(app.shutdown(), Err(OTelSdkError::AlreadyShutdown)));
    assert_eq!(rt; app.open_spans(), 0);
    assert_eq!(rt; app.processors().dropped_spans(), 2);
    Ok(())
}

#[test]
fn changes_reach_the_current_span(rt: HostRuntime) -> Result<(), Fail> {
    let alloc = rt.alloc();
    let mut app = app(rt)?;
    app.set_attribute(KeyValue::new(Key::from("lost"), Value::I64(0)))?;
    let outer = app.enter_with(SpanBuilder::from_name(StringValue::from("outer")).with_start_time(
        9,
    ))?;
    let inner = app.enter("inner")?;
    app.set_attribute(KeyValue::new(Key::from("k"), Value::I64(1)))?;
    app.add_event(StringValue::from("e"), Vec::new(alloc))?;
    app.exit(inner);
    app.set_status(Status::Ok)?;
    app.update_name(StringValue::from("renamed"))?;
    app.exit(outer);
    app.flush()?;
    let spans = finished(&app)?;
    assert_eq!(rt; spans.len(), 2);
    assert_eq!(rt; spans[0].attributes.len(), 1);
    assert_eq!(rt; spans[0].events.events[0].timestamp, 3);
    assert_eq!(rt; spans[1].attributes.len(), 0);
    assert_eq!(rt; spans[1].name.as_str(), "renamed");
    assert_eq!(rt; spans[1].start_time, 9);
    assert!(rt; spans[1].status == Status::Ok);
    Ok(())
}

#[test]
fn an_attached_context_is_the_parent(rt: HostRuntime) -> Result<(), Fail> {
    let mut app = app(rt)?;
    let caller = SpanContext::new(
        TraceId::from(7),
        SpanId::from(70),
        TraceFlags::SAMPLED,
        true,
        TraceState::NONE,
    );
    let guard = app.attach(Context::new().with_remote_span_context(rt.alloc(), caller)?)?;
    app.in_span("serve", |_: &mut App| ());
    app.detach(guard);
    app.in_span("next", |_: &mut App| ());
    assert_eq!(rt;
        exported(rt, &mut app)?.as_str(),
        "serve 70-1 1-2;next 0-2 3-4;"
    );
    Ok(())
}

#[test]
fn a_failure_is_recorded_in_its_span(rt: HostRuntime) -> Result<(), Fail> {
    let mut app = app(rt)?;
    let out = app.try_in_span("pay", |_: &mut App| -> Result<u8, u16> { Err(402) });
    assert!(rt; out == Err(402));
    let out = app.try_in_span("ship", |_: &mut App| -> Result<u8, u16> { Ok(7) });
    assert!(rt; out == Ok(7));
    app.flush()?;
    let spans = finished(&app)?;
    assert_eq!(rt; spans[0].events.events[0].name.as_str(), "exception");
    let message = &spans[0].events.events[0].attributes[0];
    assert_eq!(rt; message.key.as_str(), "exception.message");
    assert!(rt; message.value == Value::String(StringValue::from("402")));
    assert!(rt; spans[0].status == Status::error(StringValue::from("402")));
    assert!(rt; spans[1].status == Status::Unset);
    Ok(())
}

#[test]
fn a_full_queue_is_flushed(rt: HostRuntime) -> Result<(), Fail> {
    let mut app = app(rt)?;
    for name in ["a", "b", "c"] {
        app.in_span(name, |_: &mut App| ());
    }
    assert_eq!(rt; finished(&app)?.len(), 2);
    assert_eq!(rt;
        exported(rt, &mut app)?.as_str(),
        "a 0-1 1-2;b 0-2 3-4;c 0-3 5-6;"
    );
    assert_eq!(rt; app.processors().dropped_spans(), 0);
    assert_eq!(rt; app.unrecorded(), 0);
    Ok(())
}

#[test]
fn a_refused_batch_is_kept(rt: HostRuntime) -> Result<(), Fail> {
    let mut app = tracing(rt, Planned::new(rt.alloc(), "-++"))?;
    app.in_span("a", |_: &mut Traced<Planned>| ());
    assert!(rt; app.flush().is_err());
    app.enter("b")?;
    assert_eq!(rt; app.shutdown()?, 1);
    Ok(())
}
