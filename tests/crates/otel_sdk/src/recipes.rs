//! The recipes of docs/CALLS.md, and the library with which the README of the API begins.
mod library;
mod program;

use library::parse_port;
use opentelemetry::baggage::Baggage;
use opentelemetry::logs::{LogRecord, Logger, LoggerProvider, Severity};
use opentelemetry::trace::{
    Attached, NotEntered, SpanBuilder, SpanContext, SpanKind, Status, Tracing,
};
use opentelemetry::{StringValue, Value};
use otel_propagators::W3cPropagator;
use otel_sdk::error::OTelSdkError;
use otel_sdk::logs::{
    EmittedLogs, InMemoryLogExporter, LogProcessor, SdkLogger, SdkLoggerProvider,
    SimpleLogProcessor,
};
use otel_sdk::trace::{
    Build, Clock, CountedClock, CountedIdGenerator, ExporterProcessor, Exports, FinishedSpans,
    InMemorySpanExporter, OpenPipeline, ParentBased, Sampler, SdkTracing, SpanData, TracingBuilder,
    WithExporter,
};
use std::alloc::AllocError;
use std::collections::HashMap;
use std::test::Fail;
use test_support::{held, span_context};

/// A job that the span `cause` asked for.
fn job(tracing: &mut impl Tracing, name: String, cause: SpanContext) -> Result<(), NotEntered> {
    let alloc = tracing.alloc();
    let title = format!(in alloc; "job {name}")?;
    let span = SpanBuilder::from_name(title.into())
        .with_kind(SpanKind::Consumer)
        .with_attribute(alloc, "job.name", name)?;
    let job = tracing.enter_with(span)?;
    tracing.add_link(cause, Vec::new(alloc))?;
    tracing.exit(job);
    Ok(())
}

fn ask(_tracing: &mut impl Tracing) -> Result<u16, OTelSdkError> {
    Err(OTelSdkError::AlreadyShutdown)
}

/// Asks in a span, which gets the error.
fn ask_in_span(tracing: &mut impl Tracing) -> Result<u16, OTelSdkError> {
    let entered = tracing.enter("ask")?;
    let answer = ask(tracing);
    tracing.exit_with(entered, &answer);
    answer
}

/// Adds the id of the job to the baggage, until the returned value is detached.
fn with_job_id(tracing: &mut impl Tracing, id: String) -> Result<Attached, AllocError> {
    let alloc = tracing.alloc();
    let mut baggage = Baggage::new(alloc);
    baggage.insert("job.id".into(), id.into())?;
    let context = tracing.context().with_baggage(alloc, baggage)?;
    tracing.attach(context)
}

/// Logs the line with the ids of the current span.
fn log<P: LogProcessor, C: Clock>(
    tracing: &impl Tracing,
    logger: &SdkLogger<P, C>,
    line: &'static str,
) -> Result<(), AllocError> {
    let mut record = logger.create_log_record(tracing.alloc())?;
    record.set_severity_number(Severity::Info);
    record.set_body(line.into());
    logger.emit_in(tracing.context(), record);
    Ok(())
}

/// Two requests, each in a trace of its own.
fn by_turns(tracing: &mut impl Tracing) -> Result<(), NotEntered> {
    let (cart, stock) = (tracing.start("cart")?, tracing.start("stock")?);
    for request in [&cart, &stock, &cart] {
        let turn = tracing.attach(request.clone()?)?;
        let part = tracing.enter("part")?;
        tracing.exit(part);
        tracing.detach(turn);
    }
    tracing.end(&cart);
    tracing.end(&stock);
    Ok(())
}

/// A value whose spans are kept in memory.
type App = SdkTracing<
    OpenPipeline<ParentBased<Sampler>, CountedIdGenerator, CountedClock>,
    ((), ExporterProcessor<InMemorySpanExporter>),
>;

fn app(rt: HostRuntime) -> Result<App, Fail> {
    let builder = TracingBuilder::new(rt).counted(1);
    let builder = builder.with_exporter(InMemorySpanExporter::new(rt.alloc()));
    Ok(builder.build(rt.alloc(), "tests")?)
}

/// The spans that have ended.
fn exported(app: &mut App) -> Result<Vec<SpanData>, Fail> {
    app.flush()?;
    Ok(app.processors().1.exporter().get_finished_spans()?)
}

#[test]
fn a_library_has_a_span_for_each_call(rt: HostRuntime) -> Result<(), Fail> {
    let mut app = app(rt)?;
    assert!(rt; parse_port(&mut app, "4318")? == Some(4318));
    assert!(rt; parse_port(&mut app, "http")?.is_none());
    let spans = exported(&mut app)?;
    assert!(rt; spans[0].attributes[0].value == Value::from(true));
    assert!(rt; spans[1].attributes[0].value == Value::from(false));
    Ok(())
}

#[test]
fn a_span_has_the_error_of_its_work(rt: HostRuntime) -> Result<(), Fail> {
    let mut app = app(rt)?;
    assert!(rt; ask_in_span(&mut app).is_err());
    let spans = exported(&mut app)?;
    assert!(rt; matches!(&spans[0].status, Status::Error { .. }));
    assert_eq!(rt; spans[0].events.events.len(), 1);
    Ok(())
}

#[test]
fn a_job_has_its_name_and_its_cause(rt: HostRuntime) -> Result<(), Fail> {
    let mut app = app(rt)?;
    job(&mut app, format!(in rt.alloc(); "mail")?, span_context(5))?;
    let spans = exported(&mut app)?;
    assert_eq!(rt; spans[0].name.as_str(), "job mail");
    assert!(rt; spans[0].attributes[0].value == Value::from("mail"));
    assert!(rt; spans[0].links.links[0].span_context == span_context(5));
    Ok(())
}

#[test]
fn the_id_of_a_job_is_sent_on(rt: HostRuntime) -> Result<(), Fail> {
    let (alloc, mut app) = (rt.alloc(), app(rt)?);
    let attached = with_job_id(&mut app, format!(in alloc; "7")?)?;
    let mut headers = HashMap::new(alloc);
    app.send(&W3cPropagator::new(alloc)?, &mut headers)?;
    assert_eq!(rt; held(&headers, "baggage"), "job.id=7");
    app.detach(attached);
    assert!(rt; app.context().baggage().is_none());
    Ok(())
}

#[test]
fn a_record_has_the_ids_of_the_current_span(rt: HostRuntime) -> Result<(), Fail> {
    let (alloc, mut app) = (rt.alloc(), app(rt)?);
    let processor = SimpleLogProcessor::new(alloc, InMemoryLogExporter::new(alloc))?;
    let provider = SdkLoggerProvider::builder(rt)
        .with_log_processor(processor)
        .build(alloc)?;
    let logger = provider.logger(alloc, StringValue::from("tests"))?;
    let span = app.enter("job")?;
    log(&app, &logger, "done")?;
    let Ok(processor) = provider.processor() else {
        return Err(Fail::from("the processor is at work"));
    };
    let records = processor.exporter().get_emitted_logs()?;
    let ids = &records[0].record.trace_context;
    let current = app.context().span_context().span_id();
    assert!(rt; ids.as_ref().is_some_and(|ids| ids.span_id == current));
    app.exit(span);
    Ok(())
}

#[test]
fn requests_take_turns(rt: HostRuntime) -> Result<(), Fail> {
    let mut app = app(rt)?;
    by_turns(&mut app)?;
    let spans = exported(&mut app)?;
    let mut names = String::new(rt.alloc());
    for span in &spans {
        let trace = span.span_context.trace_id().to_bytes()[15];
        names.push_str(format!(in rt.alloc(); "{} {trace};", span.name.as_str())?.as_str())?;
    }
    assert_eq!(rt; names.as_str(), "part 1;part 2;part 1;cart 1;stock 2;");
    Ok(())
}
