//! Requests that are served by turns: spans end in any order, each in its own trace.
use crate::env::config;
use opentelemetry::Context;
use opentelemetry::trace::{NotEntered, TraceId, Tracing};
use otel_sdk::env::ConfiguredPropagator;
use otel_sdk::trace::{
    Build, CountedClock, CountedIdGenerator, ExporterProcessor, Exports, FinishedSpans,
    InMemorySpanExporter, OpenPipeline, ParentBased, Sampler, SdkTracing, SpanData, SpanProcessor,
    TracingBuilder, WithExporter,
};
use std::alloc::Global;
use std::collections::HashMap;
use std::process::Abort;
use std::test::Fail;
use test_support::map_of;

type Pipeline = OpenPipeline<ParentBased<Sampler>, CountedIdGenerator, CountedClock>;

type InMemory = ExporterProcessor<InMemorySpanExporter>;

/// A value with two exporters.
type App = SdkTracing<Pipeline, (((), InMemory), InMemory)>;

fn app(rt: HostRuntime) -> Result<App, Fail> {
    let alloc = rt.alloc();
    let builder = TracingBuilder::new(rt).counted(1);
    let builder = builder.with_exporter(InMemorySpanExporter::new(alloc));
    let builder = builder.with_exporter(InMemorySpanExporter::new(alloc));
    Ok(builder.build(alloc, "cart")?)
}

/// The trace of a caller, and the header that names it.
const TRACE_OF_A: u128 = 0x0af7651916cd43dd8448eb211c80319c;

const CALLER_A: &str = "00-0af7651916cd43dd8448eb211c80319c-b7ad6b7169203331-01";

const TRACE_OF_B: u128 = 0x80f198ee56343ba864fe8b2a57d3eff7;

const CALLER_B: &str = "00-80f198ee56343ba864fe8b2a57d3eff7-e457b5a2e4d86bd1-01";

fn propagator(alloc: Global) -> Result<ConfiguredPropagator, Fail> {
    Ok(config(alloc, &[])?.propagator(alloc)?)
}

fn headers(alloc: Global, caller: &str) -> Result<HashMap<String, String>, Fail> {
    Ok(map_of(alloc, &[("traceparent", caller)])?)
}

/// The spans: the name of each, its trace, and its parent's id, or `remote`.
fn text_of(alloc: Global, spans: &[SpanData]) -> Result<String, Fail> {
    let mut text = String::new(alloc);
    for span in spans {
        let trace = span.span_context.trace_id();
        let trace = if trace == TraceId::from(TRACE_OF_A) {
            "a"
        } else if trace == TraceId::from(TRACE_OF_B) {
            "b"
        } else {
            "other"
        };
        let name = span.name.as_str();
        let line = match (
            span.parent_span_is_remote,
            span.parent_span_id.to_bytes()[7],
        ) {
            (true, _) => format!(in alloc; "{name}: {trace} remote;")?,
            (false, id) => format!(in alloc; "{name}: {trace} {id};")?,
        };
        text.push_str(line.as_str())?;
    }
    Ok(text)
}

/// Asserts that both exporters get these spans, and that nothing else is left.
fn assert_exported(
    rt: &impl Abort,
    alloc: Global,
    app: &mut App,
    wanted: &str,
) -> Result<(), Fail> {
    assert_eq!(rt; app.open_spans(), 0);
    app.flush()?;
    let processors = app.processors();
    let first = processors.0.1.exporter().get_finished_spans()?;
    assert_eq!(rt; text_of(alloc, first.as_slice())?.as_str(), wanted);
    let second = processors.1.exporter().get_finished_spans()?;
    assert_eq!(rt; text_of(alloc, second.as_slice())?.as_str(), wanted);
    assert_eq!(rt; processors.dropped_spans(), 0);
    Ok(())
}

/// The first request ends while the second one is served.
#[test]
fn spans_that_are_entered_end_in_any_order(rt: HostRuntime) -> Result<(), Fail> {
    let (alloc, mut app) = (rt.alloc(), app(rt)?);
    let propagator = propagator(alloc)?;
    let from_a = app.receive(&propagator, &headers(alloc, CALLER_A)?)?;
    let serve_a = app.enter("serve a")?;
    let from_b = app.receive(&propagator, &headers(alloc, CALLER_B)?)?;
    let serve_b = app.enter("serve b")?;
    let price_of_b = app.enter("price of b")?;
    app.exit(serve_a);
    app.detach(from_a);
    assert_eq!(rt; app.open_spans(), 2);
    app.exit(price_of_b);
    app.exit(serve_b);
    assert!(rt; app.context().span_context().is_remote());
    app.detach(from_b);
    assert!(rt; !app.context().has_active_span());
    let wanted = "serve a: a remote;price of b: b 2;serve b: b remote;";
    assert_exported(&rt, alloc, &mut app, wanted)
}

#[test]
fn spans_that_are_started_are_served_by_turns(rt: HostRuntime) -> Result<(), Fail> {
    let (alloc, mut app) = (rt.alloc(), app(rt)?);
    let propagator = propagator(alloc)?;
    let turn = app.receive(&propagator, &headers(alloc, CALLER_A)?)?;
    let serve_a = app.start("serve a")?;
    app.detach(turn);
    let turn = app.receive(&propagator, &headers(alloc, CALLER_B)?)?;
    let serve_b = app.start("serve b")?;
    app.detach(turn);
    let turn = app.attach(serve_a.clone()?)?;
    let price_of_a = app.enter("price of a")?;
    let mut sent: HashMap<String, String> = HashMap::new(alloc);
    app.send(&propagator, &mut sent)?;
    app.exit(price_of_a);
    app.detach(turn);
    let header = "00-0af7651916cd43dd8448eb211c80319c-0000000000000003-01";
    assert!(rt;
        sent.get("traceparent")
            .is_some_and(|text| text.as_str() == header)
    );
    let turn = app.attach(serve_b.clone()?)?;
    assert_eq!(rt;
        app.in_span("price of b", |app: &mut App| app.open_spans()),
        3
    );
    app.end(&serve_b);
    app.detach(turn);
    app.end(&serve_a);
    let wanted = "price of a: a 1;price of b: b 2;serve b: b remote;serve a: a remote;";
    assert_exported(&rt, alloc, &mut app, wanted)
}

/// Receives a request, and starts its span.
fn served(
    app: &mut App,
    propagator: &ConfiguredPropagator,
    caller: &HashMap<String, String>,
    name: &'static str,
) -> Result<Context, NotEntered> {
    let Ok(turn) = app.receive(propagator, caller) else {
        return Err(NotEntered::PositionsUsedUp);
    };
    let span = app.start(name);
    app.detach(turn);
    span
}

/// An end takes the spans along that were entered inside it, and none of another request.
#[test]
fn an_end_leaves_the_spans_of_another_request_open(rt: HostRuntime) -> Result<(), Fail> {
    let (alloc, mut app) = (rt.alloc(), app(rt)?);
    let propagator = propagator(alloc)?;
    let serve_a = served(&mut app, &propagator, &headers(alloc, CALLER_A)?, "serve a")?;
    let serve_b = served(&mut app, &propagator, &headers(alloc, CALLER_B)?, "serve b")?;
    let turn_of_a = app.attach(serve_a.clone()?)?;
    let part_of_a = app.enter("part of a")?;
    let turn_of_b = app.attach(serve_b.clone()?)?;
    let part_of_b = app.enter("part of b")?;
    app.end(&serve_a);
    assert_eq!(rt; app.open_spans(), 2);
    app.detach(turn_of_a);
    app.exit(part_of_a);
    app.set("of", "b")?;
    app.exit(part_of_b);
    app.detach(turn_of_b);
    assert!(rt; !app.context().has_active_span());
    app.end(&serve_b);
    app.end(&serve_a);
    let wanted = "part of a: a 1;serve a: a remote;part of b: b 2;serve b: b remote;";
    assert_exported(&rt, alloc, &mut app, wanted)?;
    let spans = app.processors().1.exporter().get_finished_spans()?;
    assert_eq!(rt; spans[2].attributes.len(), 1);
    Ok(())
}
