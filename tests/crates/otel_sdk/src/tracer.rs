//! The ids, flags and parents of spans, with worked cases.
use opentelemetry::context::ContextStack;
use opentelemetry::trace::{
    Run, Span, SpanBuilder, SpanContext, SpanId, SpanKind, Spans, TraceFlags, TraceId, TraceState,
    Tracer, TracerProvider,
};
use opentelemetry::{Context, Key, KeyValue, StringValue, Value};
use otel_sdk::resource::Resource;
use otel_sdk::trace::{
    Clock, CountedClock, CountedIdGenerator, IdError, IdGenerator, ManualClock, ParentBased,
    Sampler, SamplingDecision, SamplingParameters, SamplingResult, SdkSpan, SdkTracerProvider,
    ShouldSample, SystemClock,
};
use std::alloc::{AllocError, Global};
use std::test::Fail;

/// A generator that returns the ids 9, or fails.
#[derive(Drop)]
struct Nines {
    fails: bool,
}

impl IdGenerator for Nines {
    ghost use Rattle.std.specs.Prelude.{true};

    ghost random = { λ _. true };

    ghost may_trace = { λ _ _. Unit {0} };

    ghost may_span = { λ _ _. Unit {0} };

    fn new_trace_id(&self) -> Result<TraceId, IdError> {
        if self.fails {
            return Err(IdError::Source);
        }
        Ok(TraceId::from(9))
    }

    fn new_span_id(&self) -> Result<SpanId, IdError> {
        if self.fails {
            return Err(IdError::Source);
        }
        Ok(SpanId::from(9))
    }

    fn is_random(&self) -> bool {
        true
    }
}

/// A sampler with one decision, the attribute `s=1` and the empty trace state.
#[derive(Drop)]
pub struct Answers {
    pub decision: SamplingDecision,
}

impl ShouldSample for Answers {
    ghost use Rattle.std.specs.Prelude.{◌≡◌, [], ◌∷◌, codes};
    ghost use Rattle.otel_base.specs.Value.{integer};

    ghost answer = { λ s _. record {
      decision = s.decision;
      attributes = (codes "s", integer 1) ∷ [];
      trace_state = [];
    } };

    ghost may_describe = { λ _ text. text ≡ codes "Answers" };

    fn should_sample(
        &self,
        alloc: Global,
        _span: &SamplingParameters<'_>,
    ) -> Result<SamplingResult, AllocError> {
        Ok(SamplingResult {
            decision: self.decision,
            attributes: vec![in alloc; KeyValue::new(Key::from("s"), Value::I64(1))]?,
            trace_state: TraceState::NONE,
        })
    }

    fn on_start(&mut self, _parent: &Context, _span: &SdkSpan) {}

    fn description(&self, alloc: Global) -> Result<String, AllocError> {
        String::from_str(alloc, "Answers")
    }
}

fn work() -> SpanBuilder {
    SpanBuilder::from_name(StringValue::from("work"))
}

/// The context of a parent with this span id, these flags and the trace id 1.
fn under(
    alloc: Global,
    span_id: u64,
    flags: u8,
    is_remote: bool,
    state: &str,
) -> Result<Context, Fail> {
    let parent = SpanContext::new(
        TraceId::from(1),
        SpanId::from(span_id),
        TraceFlags::new(flags),
        is_remote,
        TraceState::from_str(alloc, state)?,
    );
    Ok(Context::new().with_remote_span_context(alloc, parent)?)
}

/// A span named `work` from a sampler and a generator, under a parent. The clock shows 50.
fn started<S: ShouldSample, G: IdGenerator>(
    rt: HostRuntime,
    sampler: S,
    id_generator: G,
    parent: &Context,
) -> Result<SdkSpan, Fail> {
    let alloc = rt.alloc();
    let provider = SdkTracerProvider::builder(rt)
        .with_sampler(sampler)
        .with_id_generator(id_generator)
        .with_clock(ManualClock::new(50))
        .build(alloc)?;
    let tracer = provider.tracer(alloc, StringValue::from("lib"))?;
    Ok(tracer.build_with_context(alloc, work(), parent)?)
}

/// The trace id, the span id, the flags, and whether the span records.
fn seen(span: &SdkSpan) -> (TraceId, SpanId, u8, bool) {
    let context = span.span_context();
    let flags = context.trace_flags().to_u8();
    (
        context.trace_id(),
        context.span_id(),
        flags,
        span.is_recording(),
    )
}

fn ids(trace_id: u128, span_id: u64, flags: u8, records: bool) -> (TraceId, SpanId, u8, bool) {
    (
        TraceId::from(trace_id),
        SpanId::from(span_id),
        flags,
        records,
    )
}

const NINES: Nines = Nines { fails: false };

const FAILS: Nines = Nines { fails: true };

#[test]
fn a_root_has_new_ids_and_no_parent(rt: HostRuntime) -> Result<(), Fail> {
    let alloc = rt.alloc();
    let span = started(rt, Sampler::AlwaysOn, NINES, &Context::new())?;
    assert!(rt; seen(&span) == ids(9, 9, 0x03, true));
    assert!(rt; *span.span_context().trace_state() == TraceState::NONE);
    let Some(data) = span.data() else {
        assert!(rt; false);
        return Ok(());
    };
    assert!(rt; data.parent_span_id == SpanId::INVALID && !data.parent_span_is_remote);
    assert!(rt; data.span_kind == SpanKind::Internal && data.start_time == 50);
    assert!(rt; data.name.as_str() == "work");
    let dropped = started(rt, Sampler::AlwaysOff, NINES, &Context::new())?;
    assert!(rt; seen(&dropped) == ids(9, 9, 0x02, false) && dropped.data().is_none());
    let counted = started(
        rt,
        Sampler::AlwaysOn,
        CountedIdGenerator::new(),
        &Context::new(),
    )?;
    assert!(rt; seen(&counted) == ids(1, 1, 0x01, true));
    let no_span_id = under(alloc, 0, 0x01, false, "a=1")?;
    let span = started(rt, Sampler::AlwaysOn, NINES, &no_span_id)?;
    assert!(rt; seen(&span) == ids(9, 9, 0x03, true));
    assert!(rt; *span.span_context().trace_state() == TraceState::NONE);
    Ok(())
}

/// The flags of a parent, whether it is remote, and the flags of its child.
const CHILDREN: &[(u8, bool, u8)] = &[
    (0x01, false, 0x01),
    (0x03, true, 0x03),
    (0xff, true, 0x03),
    (0xfc, true, 0x01),
];

#[test]
fn a_child_has_its_parents_trace_id(rt: HostRuntime) -> Result<(), Fail> {
    for (flags, is_remote, own) in CHILDREN {
        let parent = under(rt.alloc(), 1, *flags, *is_remote, "")?;
        let span = started(rt, Sampler::AlwaysOn, NINES, &parent)?;
        assert!(rt; seen(&span) == ids(1, 9, *own, true));
        assert!(rt; !span.span_context().is_remote());
        let Some(data) = span.data() else {
            assert!(rt; false);
            return Ok(());
        };
        assert!(rt; data.parent_span_id == SpanId::from(1));
        assert!(rt; data.parent_span_is_remote == *is_remote);
    }
    Ok(())
}

#[test]
fn the_sampler_decides(rt: HostRuntime) -> Result<(), Fail> {
    let alloc = rt.alloc();
    let parent = under(alloc, 1, 0x00, true, "")?;
    let span = started(rt, ParentBased::new(Sampler::AlwaysOn), NINES, &parent)?;
    assert!(rt; seen(&span) == ids(1, 9, 0x00, false));
    let parent = under(alloc, 1, 0x03, true, "a=1,b=2")?;
    let span = started(rt, Sampler::AlwaysOff, NINES, &parent)?;
    assert_eq!(rt;
        span.span_context().trace_state().header(alloc)?.as_str(),
        "a=1,b=2"
    );
    let sampler = Answers {
        decision: SamplingDecision::RecordOnly,
    };
    let span = started(rt, sampler, NINES, &parent)?;
    assert!(rt; seen(&span) == ids(1, 9, 0x02, true));
    assert!(rt; *span.span_context().trace_state() == TraceState::NONE);
    assert!(rt; span.data().map(|data| data.attributes.len()) == Some(1));
    Ok(())
}

/// The ids of the context's span.
fn ids_of(context: Context) -> (TraceId, SpanId) {
    let span_context = context.span_context();
    (span_context.trace_id(), span_context.span_id())
}

/// A library that knows only the API. It handles a request `a=1` in a span, and a query in a child
/// span. Returns the ids that both saw, and the number of the request's span.
fn handle<T: Tracer>(
    alloc: Global,
    tracer: &T,
    stack: &mut ContextStack,
    spans: &mut Spans<T::Span>,
) -> Result<([(TraceId, SpanId); 2], u64), Fail> {
    let a = KeyValue::new(Key::from("a"), Value::I64(1));
    let builder = work().with_attributes(vec![in alloc; a]?);
    let name = StringValue::from("query");
    let request = |stack: &mut ContextStack, spans: &mut Spans<T::Span>, context: Context| {
        let query = |_stack: &mut ContextStack, _spans: &mut Spans<T::Span>, context: Context| {
            ids_of(context)
        };
        let inner = tracer.in_span(alloc, stack, spans, name, Run(query));
        (ids_of(context), inner)
    };
    let Ok(((outer, Ok((inner, _))), number)) = tracer.in_span_with_builder(
        alloc,
        stack,
        spans,
        builder,
        Run(request),
    ) else {
        return Err(Fail::from(AllocError));
    };
    Ok(([outer, inner], number))
}

#[test]
fn a_library_over_the_api_runs_in_spans(rt: HostRuntime) -> Result<(), Fail> {
    let alloc = rt.alloc();
    let sampler = Answers {
        decision: SamplingDecision::RecordAndSample,
    };
    let provider = SdkTracerProvider::builder(rt)
        .with_sampler(sampler)
        .with_id_generator(CountedIdGenerator::new())
        .build(alloc)?;
    let tracer = provider.tracer(alloc, StringValue::from("lib"))?;
    let mut stack = ContextStack::new(alloc)?;
    let mut spans = Spans::new(alloc);
    let (seen, number) = handle(alloc, &tracer, &mut stack, &mut spans)?;
    assert!(rt; stack.newest_position() == 0 && spans.len() == 2);
    assert!(rt; seen[0] == (TraceId::from(1), SpanId::from(1)));
    assert!(rt; seen[1] == (TraceId::from(1), SpanId::from(2)));
    let Some(data) = spans.get(number).and_then(SdkSpan::data) else {
        assert!(rt; false);
        return Ok(());
    };
    assert!(rt; data.attributes.len() == 2);
    assert!(rt; data.attributes[0] == KeyValue::new(Key::from("a"), Value::I64(1)));
    assert!(rt; data.attributes[1] == KeyValue::new(Key::from("s"), Value::I64(1)));
    provider.shutdown();
    let (seen, number) = handle(alloc, &tracer, &mut stack, &mut spans)?;
    assert!(rt; seen == [(TraceId::INVALID, SpanId::INVALID); 2]);
    assert!(rt; spans.get(number).is_some_and(|span| !span.is_recording()));
    Ok(())
}

#[test]
fn suppressed_telemetry_makes_silent_spans(rt: HostRuntime) -> Result<(), Fail> {
    let alloc = rt.alloc();
    let parent = under(alloc, 1, 0x01, false, "")?.with_telemetry_suppressed(alloc)?;
    let span = started(rt, Sampler::AlwaysOn, NINES, &parent)?;
    assert!(rt; *span.span_context() == SpanContext::NONE && !span.is_recording());
    Ok(())
}

#[test]
fn a_failed_generator_is_counted(rt: HostRuntime) -> Result<(), Fail> {
    let alloc = rt.alloc();
    let parent = under(alloc, 1, 0x01, false, "")?;
    let span = started(rt, Sampler::AlwaysOn, FAILS, &parent)?;
    assert!(rt; seen(&span) == ids(1, 1, 0x01, false));
    let root = started(rt, Sampler::AlwaysOn, FAILS, &Context::new())?;
    assert!(rt; *root.span_context() == SpanContext::NONE && !root.is_recording());
    let provider = SdkTracerProvider::builder(rt)
        .with_id_generator(FAILS)
        .build(alloc)?;
    let tracer = provider.tracer(alloc, StringValue::from("lib"))?;
    for count in 1..3 {
        let span = tracer.build_with_context(alloc, work(), &parent)?;
        assert!(rt; !span.is_recording() && provider.failed_ids() == count);
    }
    Ok(())
}

#[test]
fn after_the_shutdown_spans_are_silent(rt: HostRuntime) -> Result<(), Fail> {
    let alloc = rt.alloc();
    let first = Resource::builder_empty(alloc).with_service_name(StringValue::from("a"))?;
    let second = Resource::builder_empty(alloc).with_service_name(StringValue::from("b"))?;
    let provider = SdkTracerProvider::builder(rt)
        .with_resource(first.build())?
        .with_resource(second.build())?
        .build(alloc)?;
    assert!(rt; provider.resource().len() == 1);
    let tracer = provider.tracer(alloc, StringValue::from("lib"))?;
    let span = tracer.build_with_context(alloc, work(), &Context::new())?;
    assert!(rt; span.is_recording() && span.data().is_some());
    for _ in 0..2 {
        provider.shutdown();
        let span = tracer.build_with_context(alloc, work(), &Context::new())?;
        assert!(rt; *span.span_context() == SpanContext::NONE && !span.is_recording());
    }
    assert_eq!(rt; provider.failed_ids(), 0);
    Ok(())
}

#[test]
fn a_provider_with_defaults_starts_sampled_roots(rt: HostRuntime) -> Result<(), Fail> {
    let alloc = rt.alloc();
    let provider = SdkTracerProvider::builder(rt)
        .with_max_events_per_span(16)
        .build(alloc)?;
    let tracer = provider.tracer(alloc, StringValue::from("cart"))?;
    let span = tracer.build_with_context(alloc, work(), &Context::new())?;
    assert!(rt; span.span_context().is_valid() && span.is_recording());
    assert_eq!(rt; span.span_context().trace_flags().to_u8(), 0x03);
    Ok(())
}

#[test]
fn a_manual_clock_shows_what_it_is_set_to(rt: HostRuntime) -> Result<(), Fail> {
    let clock = ManualClock::new(5);
    clock.set(7);
    assert_eq!(rt; clock.now(), 7);
    clock.set(3);
    assert_eq!(rt; clock.now(), 3);
    Ok(())
}

#[test]
fn a_counted_clock_moves_on_at_each_reading(rt: HostRuntime) -> Result<(), Fail> {
    let clock = CountedClock::new(2);
    assert_eq!(rt; clock.now(), 0);
    assert_eq!(rt; clock.now(), 2);
    assert_eq!(rt; clock.now(), 4);
    let last = CountedClock::new(u64::MAX);
    assert_eq!(rt; last.now(), 0);
    assert_eq!(rt; last.now(), u64::MAX);
    assert_eq!(rt; last.now(), u64::MAX);
    Ok(())
}

#[test]
fn the_system_s_clock_shows_nanoseconds(rt: HostRuntime) -> Result<(), Fail> {
    let now = SystemClock::new(rt).now();
    // From 2017 to 2128.
    assert!(rt; now > 1_500_000_000_000_000_000);
    assert!(rt; now < 5_000_000_000_000_000_000);
    Ok(())
}
