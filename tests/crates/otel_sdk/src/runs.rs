//! Runs of calls, from the starts of spans to an exporter: worked runs.
use crate::processor::Planned;
use crate::tracer::Answers;
use opentelemetry::trace::{
    Attached, NotEntered, SpanBuilder, SpanContext, SpanId, SpanKind, Status, TraceFlags, TraceId,
    TraceState, Tracing,
};
use opentelemetry::{Context, StringValue};
use otel_sdk::trace::{
    BatchConfig, BatchConfigBuilder, Build, CountedClock, CountedIdGenerator, ExporterProcessor,
    Exports, FinishedSpans, InMemorySpanExporter, OpenPipeline, ParentBased, Sampler,
    SamplingDecision, SdkTracing, ShouldSample, SpanData, SpanExporter, SpanProcessor,
    TracingBuilder, WithExporter,
};
use std::alloc::{AllocError, Global};
use std::test::Fail;

/// A value with one exporter, counted ids, and a clock that shows a time 10 ns later at each
/// reading.
type Traced<S, E> = SdkTracing<
    OpenPipeline<S, CountedIdGenerator, CountedClock>,
    ((), ExporterProcessor<E>),
>;

/// A run: the contexts of the spans that were started, what is attached, and how often a flush or a
/// shutdown failed.
#[derive(Drop)]
struct Run<T> {
    tracing: T,
    spans: Vec<Context>,
    attached: Vec<Option<Attached>>,
    failures: usize,
}

/// A context with a remote parent in the trace 7 with these flags.
fn under(alloc: Global, flags: u8) -> Result<Context, AllocError> {
    let parent = SpanContext::new(
        TraceId::from(7),
        SpanId::from(70),
        TraceFlags::new(flags),
        true,
        TraceState::NONE,
    );
    Context::new().with_remote_span_context(alloc, parent)
}

/// A builder of a span named `work`.
fn work() -> SpanBuilder {
    SpanBuilder::from_name(StringValue::from("work"))
}

/// Adds to the list.
fn add<I: Drop>(list: &mut Vec<I>, item: I) -> Result<(), AllocError> {
    Ok(list.push(item)?)
}

impl<T: Exports> Run<T> {
    /// Starts a span under a remote parent with these flags, or under the current context.
    fn start(&mut self, flags: Option<u8>) -> Result<(), NotEntered> {
        let span = match flags {
            Some(flags) => {
                let parent = under(self.tracing.alloc(), flags)?;
                self.tracing.start_under(&parent, work())?
            }
            None => self.tracing.start_with(work())?,
        };
        Ok(add(&mut self.spans, span)?)
    }

    fn attach(&mut self, context: Context) -> Result<(), AllocError> {
        let attached = self.tracing.attach(context)?;
        add(&mut self.attached, Some(attached))
    }

    fn detach(&mut self, number: usize) {
        if let Some(attached) = self.attached.get_mut(number).and_then(|it| it.take()) {
            self.tracing.detach(attached);
        }
    }

    /// Sets an attribute of the span with the number.
    fn change(&mut self, number: usize) -> Result<(), AllocError> {
        if let Some(span) = self.spans.get(number) {
            let turn = self.tracing.attach(span.clone()?)?;
            self.tracing.set("k", 1)?;
            self.tracing.detach(turn);
        }
        Ok(())
    }

    fn end(&mut self, number: usize) {
        if let Some(span) = self.spans.get(number) {
            self.tracing.end(span);
        }
    }

    /// Makes a call of a script.
    fn call(&mut self, call: &[u8]) -> Result<(), NotEntered> {
        match call {
            [b's'] => self.start(Some(0x01))?,
            [b'd'] => self.start(Some(0x00))?,
            [b'n'] => self.start(None)?,
            [b'p'] => {
                self.start(None)?;
                if let Some(span) = self.spans.last() {
                    self.attach(span.clone()?)?;
                }
            }
            [b'r'] => self.attach(under(self.tracing.alloc(), 0x01)?)?,
            [b'x', number] => self.detach((*number - b'0') as usize),
            [b'a', number] => self.change((*number - b'0') as usize)?,
            [b'e', number] => self.end((*number - b'0') as usize),
            [b'q'] => self.failures += usize::from(self.tracing.shutdown().is_err()),
            _ => self.failures += usize::from(self.tracing.flush().is_err()),
        }
        Ok(())
    }
}

/// Makes the calls of a script: `s` and `d` start the next span, from number 0 on, under a sampled
/// and an unsampled parent, and `n` under the current context; `p` also attaches it; `r` attaches a
/// sampled remote parent, and `x0` detaches what was attached first; `a0` sets an attribute of the
/// span 0, `e0` ends it, `f` flushes, and `q` shuts down. Ids are counted from 1, so the span 0 has
/// the id 1.
fn played<S: ShouldSample, E: SpanExporter>(
    rt: HostRuntime,
    sampler: S,
    exporter: E,
    config: BatchConfig,
    script: &'static str,
) -> Result<Run<Traced<S, E>>, Fail> {
    let alloc = rt.alloc();
    let tracing = TracingBuilder::new(rt)
        .with_sampler(sampler)
        .counted(10)
        .with_batch_config(config)
        .with_exporter(exporter)
        .build(alloc, "lib")?;
    let mut run = Run {
        tracing,
        spans: Vec::new(alloc),
        attached: Vec::new(alloc),
        failures: 0,
    };
    for call in script.split(' ') {
        run.call(call.as_bytes())?;
    }
    Ok(run)
}

/// The limits of the queue and of a batch, the exporter's plan, the calls; the span ids in the
/// batches that the exporter receives, the number of calls that failed, and the numbers of spans
/// that are left in the queue, were dropped, and are open.
type Row = (
    usize,
    usize,
    &'static str,
    &'static str,
    &'static str,
    usize,
    usize,
    u64,
    usize,
);

const RUNS: &[Row] = &[
    (4, 2, "++", "s s s e0 e1 e2 f", "[1 2][3]", 0, 0, 0, 0),
    (4, 2, "-", "s s s e0 e1 e2 f", "[1 2]!", 1, 3, 0, 0),
    (
        4,
        2,
        "-++",
        "s s s e0 e1 e2 f f",
        "[1 2]![1 2][3]",
        1,
        0,
        0,
        0,
    ),
    (
        4,
        2,
        "+-+",
        "s s s e0 e1 e2 f s e3 f",
        "[1 2][3]![3 4]",
        1,
        0,
        0,
        0,
    ),
    // A span that comes to a full queue flushes it, and is dropped if that doesn't make space.
    (
        4,
        2,
        "+++",
        "s s s s s s e0 e1 e2 e3 e4 e5 f",
        "[1 2][3 4][5 6]",
        0,
        0,
        0,
        0,
    ),
    (2, 2, "-+", "s s s e0 e1 e2 f", "[1 2]![1 2]", 0, 0, 1, 0),
    (
        4,
        2,
        "-++",
        "s s s s e0 e1 e2 e3 f s e4 f",
        "[1 2]![1 2][3 4]",
        1,
        0,
        1,
        0,
    ),
    (
        4,
        2,
        "++-",
        "s s s s e0 e1 e2 e3 f s e4 f",
        "[1 2][3 4][5]!",
        1,
        1,
        0,
        0,
    ),
    (2, 4, "++", "s s s e0 e1 e2 f", "[1 2][3]", 0, 0, 0, 0),
    // No span is exported twice.
    (4, 2, "+", "f s e0 e0 f f", "[1]", 0, 0, 0, 0),
    (4, 2, "+", "s e0 f e0 a0 f", "[1]", 0, 0, 0, 0),
    // The order is that of the ends.
    (4, 2, "+", "s s e1 e0 f", "[2 1]", 0, 0, 0, 0),
    (4, 2, "++", "s s e1 f e0 f", "[2][1]", 0, 0, 0, 0),
    (4, 2, "+", "s s e1 f", "[2]", 0, 0, 0, 1),
    (4, 2, "", "s s e1", "", 0, 1, 0, 1),
    (4, 2, "", "e0 a0 s e5 a5", "", 0, 0, 0, 1),
    // Only sampled spans are exported: here the ones under a sampled parent.
    (4, 2, "+", "s d e0 e1 f", "[1]", 0, 0, 0, 0),
    (4, 2, "+", "r n x0 n e0 e1 f", "[1]", 0, 0, 0, 0),
    (4, 2, "+", "r p x0 n e1 n e2 x1 n e3 f", "[2 3]", 0, 0, 0, 1),
    // A shutdown that succeeds is the last one, and one that fails allows another try.
    (4, 2, "+", "s s e0 q e1 f q", "[1 2]", 2, 0, 0, 0),
    (4, 2, "+", "s e0 q s e1 q", "[1]", 1, 0, 1, 0),
    (4, 2, "-+", "s s e0 q q", "[1 2]![1 2]", 1, 0, 0, 0),
    (4, 2, "-+", "s e0 q s e1 q q", "[1]![1 2]", 2, 0, 0, 0),
];

#[test]
fn a_run_hands_each_sampled_span_on_once(rt: HostRuntime) -> Result<(), Fail> {
    let alloc = rt.alloc();
    for (queue, batch, plan, script, batches, failures, queued, dropped, open) in RUNS {
        let config = BatchConfigBuilder::default()
            .with_max_queue_size(*queue)
            .with_max_export_batch_size(*batch)
            .build();
        let sampler = ParentBased::new(Sampler::AlwaysOff);
        let run = played(rt, sampler, Planned::new(alloc, plan), config, script)?;
        let processors = run.tracing.processors();
        assert_eq!(rt; processors.1.exporter().log.as_str(), *batches, "{script}");
        assert_eq!(rt; run.failures, *failures, "{script}");
        assert_eq!(rt; processors.queued_spans(), *queued, "{script}");
        assert_eq!(rt; processors.dropped_spans(), *dropped, "{script}");
        assert_eq!(rt; run.tracing.open_spans(), *open, "{script}");
    }
    Ok(())
}

#[test]
fn a_span_that_is_only_recorded_is_not_exported(rt: HostRuntime) -> Result<(), Fail> {
    let alloc = rt.alloc();
    let sampler = Answers {
        decision: SamplingDecision::RecordOnly,
    };
    let exporter = Planned::new(alloc, "+");
    let run = played(rt, sampler, exporter, BatchConfig::default(), "s e0 f")?;
    let processors = run.tracing.processors();
    assert_eq!(rt; processors.1.exporter().log.as_str(), "");
    assert_eq!(rt;
        (processors.queued_spans(), processors.dropped_spans()),
        (0, 0)
    );
    assert_eq!(rt; run.tracing.open_spans(), 0);
    Ok(())
}

/// The spans that are exported in a run of the script, all of which are sampled.
fn exported(rt: HostRuntime, script: &'static str) -> Result<Vec<SpanData>, Fail> {
    let exporter = InMemorySpanExporter::new(rt.alloc());
    let config = BatchConfig::default();
    let run = played(rt, Sampler::AlwaysOn, exporter, config, script)?;
    Ok(run.tracing.processors().1.exporter().get_finished_spans()?)
}

#[test]
fn an_exported_span_is_as_it_was_recorded_at_its_end(rt: HostRuntime) -> Result<(), Fail> {
    let spans = exported(rt, "s s a0 e0 a0 a1 f")?;
    assert_eq!(rt; spans.len(), 1);
    let span = &spans[0];
    assert_eq!(rt; span.span_context.trace_id(), TraceId::from(7));
    assert_eq!(rt; span.span_context.span_id(), SpanId::from(1));
    assert!(rt; span.parent_span_id == SpanId::from(70) && span.parent_span_is_remote);
    assert_eq!(rt; span.end_time - span.start_time, 20);
    assert_eq!(rt; span.attributes.len(), 1);
    assert_eq!(rt; span.name.as_str(), "work");
    Ok(())
}

#[test]
fn a_span_under_the_current_context_is_a_child_of_its_span(rt: HostRuntime) -> Result<(), Fail> {
    let spans = exported(rt, "p p n x1 n x0 n r n e0 e1 e2 e3 e4 e5 f")?;
    assert_eq!(rt; spans.len(), 6);
    let parents = [0, 1, 2, 1, 0, 70];
    for (span, parent) in spans.iter().zip(parents) {
        assert_eq!(rt; span.parent_span_id, SpanId::from(parent));
    }
    let trace = spans[0].span_context.trace_id();
    for (number, span) in spans.iter().enumerate() {
        assert_eq!(rt;
            span.span_context.span_id(),
            SpanId::from(number as u64 + 1)
        );
        assert_eq!(rt; span.span_context.trace_id() == trace, number < 4);
    }
    assert_eq!(rt; spans[5].span_context.trace_id(), TraceId::from(7));
    Ok(())
}

/// Makes each change of the current span.
fn change(tracing: &mut impl Tracing, name: &'static str) -> Result<(), AllocError> {
    let alloc = tracing.alloc();
    let (trace_id, span_id) = (TraceId::from(1), SpanId::from(2));
    let flags = TraceFlags::NOT_SAMPLED;
    let linked = SpanContext::new(trace_id, span_id, flags, false, TraceState::NONE);
    tracing.set("k", 1)?;
    tracing.add_link(linked, Vec::new(alloc))?;
    tracing.add_event(StringValue::from("e"), Vec::new(alloc))?;
    tracing.set_status(Status::Ok)?;
    tracing.update_name(StringValue::from(name))
}

#[test]
fn a_started_span_is_changed_until_its_end(rt: HostRuntime) -> Result<(), Fail> {
    let alloc = rt.alloc();
    let exporter = InMemorySpanExporter::new(alloc);
    let config = BatchConfig::default();
    let mut run = played(rt, Sampler::AlwaysOn, exporter, config, "f")?;
    let context = run.tracing.start("work")?;
    let turn = run.tracing.attach(context.clone()?)?;
    change(&mut run.tracing, "more")?;
    run.tracing.end(&context);
    run.tracing.end(&context);
    change(&mut run.tracing, "late")?;
    run.tracing.detach(turn);
    change(&mut run.tracing, "nobody")?;
    run.tracing.flush()?;
    let spans = run.tracing.processors().1.exporter().get_finished_spans()?;
    let [span] = spans.as_slice() else {
        return Err(Fail::from("other spans"));
    };
    assert_eq!(rt; span.name.as_str(), "more");
    assert_eq!(rt; (span.attributes.len(), span.events.events.len()), (1, 1));
    assert_eq!(rt; span.links.links.len(), 1);
    // The clock is read at the start, at the event, and at the first end.
    assert_eq!(rt; span.end_time - span.start_time, 20);
    assert!(rt; span.status == Status::Ok && span.span_kind == SpanKind::Internal);
    Ok(())
}
