//! The calls that tracers make on their generator of ids, their sampler and their clock, each
//! counted.
use opentelemetry::trace::{
    Span, SpanBuilder, SpanContext, SpanId, SpanKind, TraceFlags, TraceId, TraceState, Tracer,
    TracerProvider, Tracing,
};
use opentelemetry::{Context, KeyValue, StringValue};
use otel_sdk::trace::{
    Build, Clock, Exports, IdError, IdGenerator, InMemorySpanExporter, SamplingDecision,
    SamplingParameters, SamplingResult, SdkSpan, SdkTracerProvider, ShouldSample, TracingBuilder,
    WithExporter,
};
use std::alloc::{AllocError, Global};
use std::cell::Cell;
use std::rc::Rc;
use std::test::Fail;

/// How often a trace id was asked for, a span id, a decision, and a moment.
#[derive(Drop)]
struct Counts {
    traces: Cell<u64>,
    spans: Cell<u64>,
    decisions: Cell<u64>,
    moments: Cell<u64>,
    fails: Cell<bool>,
}

impl Counts {
    /// Returns the four counts, which start again.
    fn taken(&self) -> (u64, u64, u64, u64) {
        (
            self.traces.replace(0),
            self.spans.replace(0),
            self.decisions.replace(0),
            self.moments.replace(0),
        )
    }
}

/// Adds one to the count, and returns it.
fn counted(count: &Cell<u64>) -> u64 {
    count.set(count.get().saturating_add(1));
    count.get()
}

/// A generator, a sampler and a clock, which count their calls.
#[derive(Drop)]
struct Counting {
    counts: Rc<Counts>,
    decision: SamplingDecision,
}

impl IdGenerator for Counting {
    ghost use Rattle.std.specs.Prelude.{true};

    ghost random = { λ _. true };

    ghost may_trace = { λ _ _. Unit {0} };

    ghost may_span = { λ _ _. Unit {0} };

    fn new_trace_id(&self) -> Result<TraceId, IdError> {
        let number = counted(&self.counts.traces);
        if self.counts.fails.get() {
            return Err(IdError::Source);
        }
        Ok(TraceId::from(number as u128))
    }

    fn new_span_id(&self) -> Result<SpanId, IdError> {
        let number = counted(&self.counts.spans);
        if self.counts.fails.get() {
            return Err(IdError::Source);
        }
        Ok(SpanId::from(number))
    }

    fn is_random(&self) -> bool {
        true
    }
}

impl ShouldSample for Counting {
    ghost use Rattle.std.specs.Prelude.{[]};

    ghost answer = { λ s _. record {
      decision = s.decision;
      attributes = [];
      trace_state = [];
    } };

    ghost may_describe = { λ _ _. Unit {0} };

    fn should_sample(
        &self,
        alloc: Global,
        _span: &SamplingParameters<'_>,
    ) -> Result<SamplingResult, AllocError> {
        let _ = counted(&self.counts.decisions);
        Ok(SamplingResult {
            decision: self.decision,
            attributes: Vec::new(alloc),
            trace_state: TraceState::NONE,
        })
    }

    fn on_start(&mut self, _parent: &Context, _span: &SdkSpan) {}

    fn description(&self, alloc: Global) -> Result<String, AllocError> {
        String::from_str(alloc, "Counting")
    }
}

impl Clock for Counting {
    fn now(&self) -> u64 {
        counted(&self.counts.moments)
    }
}

fn no_calls(alloc: Global) -> Result<Rc<Counts>, AllocError> {
    let counts = Counts {
        traces: Cell::new(0),
        spans: Cell::new(0),
        decisions: Cell::new(0),
        moments: Cell::new(0),
        fails: Cell::new(false),
    };
    Ok(Rc::new(alloc, counts)?)
}

/// A part that counts in these counts.
fn counting(counts: &Rc<Counts>, decision: SamplingDecision) -> Result<Counting, AllocError> {
    Ok(Counting {
        counts: counts.clone()?,
        decision,
    })
}

/// The context of a parent with the ids 7.
fn under_a_parent(alloc: Global) -> Result<Context, AllocError> {
    let (trace_id, span_id) = (TraceId::from(7), SpanId::from(7));
    let parent = SpanContext::new(
        trace_id,
        span_id,
        TraceFlags::SAMPLED,
        true,
        TraceState::NONE,
    );
    Context::new().with_remote_span_context(alloc, parent)
}

fn work() -> SpanBuilder {
    SpanBuilder::from_name(StringValue::from("work"))
}

#[test]
fn a_span_asks_for_what_it_needs_once(rt: HostRuntime) -> Result<(), Fail> {
    let alloc = rt.alloc();
    for decision in [SamplingDecision::RecordAndSample, SamplingDecision::Drop] {
        let counts = no_calls(alloc)?;
        let provider = SdkTracerProvider::builder(rt)
            .with_sampler(counting(&counts, decision)?)
            .with_id_generator(counting(&counts, decision)?)
            .with_clock(counting(&counts, decision)?)
            .build(alloc)?;
        let tracer = provider.tracer(alloc, StringValue::from("lib"))?;
        assert_eq!(rt; counts.taken(), (0, 0, 0, 0));
        let records = decision != SamplingDecision::Drop;
        let (root, child) = (Context::new(), under_a_parent(alloc)?);
        for (parent, traces) in [(&root, 1), (&child, 0)] {
            let span = tracer.build_with_context(alloc, work(), parent)?;
            assert_eq!(rt; span.is_recording(), records);
            assert_eq!(rt; counts.taken(), (traces, 1, 1, u64::from(records)));
            let timed = work().with_start_time(5);
            let span = tracer.build_with_context(alloc, timed, parent)?;
            assert_eq!(rt; span.is_recording(), records);
            assert_eq!(rt; counts.taken(), (traces, 1, 1, 0));
        }
        let suppressed = child.with_telemetry_suppressed(alloc)?;
        drop(tracer.build_with_context(alloc, work(), &suppressed)?);
        assert_eq!(rt; counts.taken(), (0, 0, 0, 0));
        counts.fails.set(true);
        drop(tracer.build_with_context(alloc, work(), &child)?);
        assert_eq!(rt; counts.taken(), (0, 1, 0, 0));
        drop(tracer.build_with_context(alloc, work(), &root)?);
        assert_eq!(rt; counts.taken(), (1, 0, 0, 0));
        assert_eq!(rt; provider.failed_ids(), 2);
        provider.shutdown();
        drop(tracer.build_with_context(alloc, work(), &child)?);
        assert_eq!(rt; counts.taken(), (0, 0, 0, 0));
    }
    Ok(())
}

#[test]
fn a_tracing_asks_for_what_it_needs_once(rt: HostRuntime) -> Result<(), Fail> {
    let alloc = rt.alloc();
    let counts = no_calls(alloc)?;
    let decision = SamplingDecision::RecordAndSample;
    let mut tracing = TracingBuilder::new(rt)
        .with_sampler(counting(&counts, decision)?)
        .with_id_generator(counting(&counts, decision)?)
        .with_clock(counting(&counts, decision)?)
        .with_exporter(InMemorySpanExporter::new(alloc))
        .build(alloc, "cart")?;
    assert_eq!(rt; counts.taken(), (0, 0, 0, 0));
    let serve = tracing.enter("serve")?;
    assert_eq!(rt; counts.taken(), (1, 1, 1, 1));
    let price = tracing.enter_with(work().with_start_time(5))?;
    assert_eq!(rt; counts.taken(), (0, 1, 1, 1));
    tracing.add_event(StringValue::from("e"), Vec::new(alloc))?;
    assert_eq!(rt; counts.taken(), (0, 0, 0, 1));
    tracing.record_error(&402)?;
    assert_eq!(rt; counts.taken(), (0, 0, 0, 1));
    tracing.update_name(StringValue::from("renamed"))?;
    assert_eq!(rt; counts.taken(), (0, 0, 0, 0));
    tracing.exit(price);
    assert_eq!(rt; counts.taken(), (0, 0, 0, 1));
    tracing.exit(price);
    tracing.flush()?;
    assert_eq!(rt; counts.taken(), (0, 0, 0, 0));
    tracing.exit(serve);
    assert_eq!(rt; counts.taken(), (0, 0, 0, 1));
    assert_eq!(rt; tracing.shutdown()?, 0);
    assert_eq!(rt; counts.taken(), (0, 0, 0, 1));
    Ok(())
}
