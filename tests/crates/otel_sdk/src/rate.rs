//! The roots that a sampler of at most so many a second samples, by the clock of a value that traces.
use opentelemetry::trace::{
    NotEntered, SpanBuilder, SpanContext, SpanId, TraceFlags, TraceId, TraceState, Tracing,
};
use otel_sdk::trace::{Build, ParentBased, RateLimitingSampler, ShouldSample, TracingBuilder};
use std::process::Abort;
use std::test::Fail;

/// A second, in nanoseconds.
const SECOND: u64 = 1_000_000_000;

/// Seconds at which a root starts, and whether it is sampled if two a second are.
const ROOTS: &[(u64, bool)] = &[
    (5, true),
    (5, true),
    (5, false),
    (6, true),
    // The clock is set back: the root counts in second 6.
    (5, true),
    (6, false),
    (5, false),
    (8, true),
    (8, true),
    (8, false),
];

/// Returns whether the current span is sampled.
fn is_sampled(tracing: &impl Tracing) -> bool {
    tracing.context().span_context().is_sampled()
}

/// Enters roots at the seconds, each with two children, which don't count.
fn enter_roots(rt: &impl Abort, tracing: &mut impl Tracing) -> Result<(), NotEntered> {
    for (second, wanted) in ROOTS {
        let start = *second * SECOND + 999_999_999;
        let builder = SpanBuilder::from_name("root".into()).with_start_time(start);
        let root = tracing.enter_with(builder)?;
        for name in ["first child", "second child"] {
            assert_eq!(rt; is_sampled(tracing), *wanted);
            let builder = SpanBuilder::from_name(name.into()).with_start_time(start);
            let _child = tracing.enter_with(builder)?;
        }
        assert_eq!(rt; is_sampled(tracing), *wanted);
        tracing.exit(root);
    }
    Ok(())
}

#[test]
fn at_most_two_roots_a_second_are_sampled(rt: HostRuntime) -> Result<(), Fail> {
    let sampler = RateLimitingSampler::new(2);
    let builder = TracingBuilder::new(rt).with_sampler(sampler);
    Ok(enter_roots(&rt, &mut builder.build(rt.alloc(), "tests")?)?)
}

#[test]
fn few_roots_are_all_sampled(rt: HostRuntime) -> Result<(), Fail> {
    let builder = TracingBuilder::new(rt).with_sampler(RateLimitingSampler::new(100));
    let mut tracing = builder.counted(1).build(rt.alloc(), "tests")?;
    for _ in 0..100 {
        let root = tracing.enter("root")?;
        assert!(rt; is_sampled(&tracing));
        tracing.exit(root);
    }
    drop(tracing.enter("root")?);
    assert!(rt; !is_sampled(&tracing));
    Ok(())
}

#[test]
fn it_can_be_asked_for_roots_only(rt: HostRuntime) -> Result<(), Fail> {
    let sampler = ParentBased::new(RateLimitingSampler::new(2));
    let builder = TracingBuilder::new(rt).with_sampler(sampler);
    Ok(enter_roots(&rt, &mut builder.build(rt.alloc(), "tests")?)?)
}

/// Each reading of the clock is 0.4 seconds later: roots start at 0, 0.8, 1.6, 2.4 and 3.2.
#[test]
fn the_clock_counts(rt: HostRuntime) -> Result<(), Fail> {
    let mut tracing = TracingBuilder::new(rt)
        .counted(400_000_000)
        .with_sampler(RateLimitingSampler::new(1))
        .build(rt.alloc(), "tests")?;
    for wanted in [true, false, true, true, true] {
        let root = tracing.enter("root")?;
        assert_eq!(rt; is_sampled(&tracing), wanted);
        tracing.exit(root);
    }
    Ok(())
}

#[test]
fn a_remote_parent_is_followed(rt: HostRuntime) -> Result<(), Fail> {
    let alloc = rt.alloc();
    let mut tracing = TracingBuilder::new(rt)
        .with_sampler(RateLimitingSampler::new(0))
        .build(alloc, "tests")?;
    for (flags, wanted) in [
        (TraceFlags::SAMPLED, true),
        (TraceFlags::NOT_SAMPLED, false),
    ] {
        let (trace_id, span_id) = (TraceId::from(1), SpanId::from(2));
        let remote = SpanContext::new(trace_id, span_id, flags, true, TraceState::NONE);
        let parent = tracing.context().with_remote_span_context(alloc, remote)?;
        let span = tracing.start_under(&parent, SpanBuilder::from_name("serve".into()))?;
        assert_eq!(rt; span.span_context().is_sampled(), wanted);
        tracing.end(&span);
    }
    drop(tracing.enter("root")?);
    assert!(rt; !is_sampled(&tracing));
    Ok(())
}

#[test]
fn it_is_described(rt: HostRuntime) -> Result<(), Fail> {
    let text = RateLimitingSampler::new(100).description(rt.alloc())?;
    assert_eq!(rt; text.as_str(), "RateLimitingSampler{100}");
    Ok(())
}
