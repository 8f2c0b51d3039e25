//! The answers of samplers under each kind of parent, and their descriptions.
use opentelemetry::Context;
use opentelemetry::trace::{SpanContext, SpanId, SpanKind, TraceFlags, TraceId, TraceState};
use otel_sdk::trace::{
    ParentBased, Sampler, SamplingDecision, SamplingParameters, SamplingResult, ShouldSample,
};
use std::alloc::Global;
use std::test::Fail;

/// A parent: its span id, its flags, and whether it is remote. Its trace id is 1.
type Parent = (u64, u8, bool);

/// A parent whose span id is 0, so that the span is a root.
const NONE: Parent = (0, 0, true);

const REMOTE_SAMPLED: Parent = (1, 0x01, true);

const REMOTE: Parent = (1, 0x00, true);

const LOCAL_SAMPLED: Parent = (1, 0x01, false);

const LOCAL: Parent = (1, 0x00, false);

/// The answer of a sampler for the trace with this id, under a parent with the trace state
/// `a=1,b=2`.
fn asked<S: ShouldSample>(
    alloc: Global,
    sampler: &S,
    parent: Parent,
    trace_id: u128,
) -> Result<SamplingResult, Fail> {
    let (span_id, flags, is_remote) = parent;
    let parent = Context::new().with_remote_span_context(
        alloc,
        SpanContext::new(
            TraceId::from(1),
            SpanId::from(span_id),
            TraceFlags::new(flags),
            is_remote,
            TraceState::from_str(alloc, "a=1,b=2")?,
        ),
    )?;
    let span = SamplingParameters {
        parent_context: &parent,
        trace_id: TraceId::from(trace_id),
        name: "work",
        span_kind: SpanKind::Server,
        attributes: &[],
        links: &[],
        start_time: None,
    };
    Ok(sampler.should_sample(alloc, &span)?)
}

/// Returns whether a sampler samples a span under a parent.
fn samples<S: ShouldSample>(alloc: Global, sampler: &S, parent: Parent) -> Result<bool, Fail> {
    let answer = asked(alloc, sampler, parent, 1)?;
    Ok(answer.decision == SamplingDecision::RecordAndSample)
}

/// The parents, and whether `ParentBased` samples a span under them if its root sampler is
/// `AlwaysOff`, and if it is `AlwaysOn`.
const PARENTS: &[(Parent, bool, bool)] = &[
    (NONE, false, true),
    (REMOTE_SAMPLED, true, true),
    (LOCAL_SAMPLED, true, true),
    (REMOTE, false, false),
    (LOCAL, false, false),
    ((1, 0xff, true), true, true),
    ((1, 0xfe, false), false, false),
];

#[test]
fn parent_based_follows_a_valid_parent(rt: HostRuntime) -> Result<(), Fail> {
    let alloc = rt.alloc();
    let off = ParentBased::new(Sampler::AlwaysOff);
    let on = ParentBased::new(Sampler::AlwaysOn);
    for (parent, with_off, with_on) in PARENTS {
        assert_eq!(rt; samples(alloc, &off, *parent)?, *with_off);
        assert_eq!(rt; samples(alloc, &on, *parent)?, *with_on);
    }
    Ok(())
}

#[test]
fn each_of_the_five_samplers_is_asked_for_its_parents(rt: HostRuntime) -> Result<(), Fail> {
    let alloc = rt.alloc();
    let mut sampler = ParentBased::new(Sampler::AlwaysOn);
    sampler.remote_parent_not_sampled = Sampler::AlwaysOn;
    assert!(rt; samples(alloc, &sampler, REMOTE)? && !samples(alloc, &sampler, LOCAL)?);
    let sampler = ParentBased {
        root: ParentBased::new(Sampler::AlwaysOff),
        remote_parent_sampled: Sampler::AlwaysOff,
        remote_parent_not_sampled: Sampler::AlwaysOff,
        local_parent_sampled: Sampler::AlwaysOff,
        local_parent_not_sampled: Sampler::AlwaysOn,
    };
    for parent in [NONE, REMOTE_SAMPLED, REMOTE, LOCAL_SAMPLED] {
        assert!(rt; !samples(alloc, &sampler, parent)?);
    }
    assert!(rt; samples(alloc, &sampler, LOCAL)?);
    Ok(())
}

#[test]
fn a_ratio_does_not_look_at_the_parent(rt: HostRuntime) -> Result<(), Fail> {
    let alloc = rt.alloc();
    let ratio = Sampler::TraceIdRatioBased(0.5);
    let high: u128 = 0xffff_ffff_ffff_ffff_0000_0000_0000_0000;
    let sampled = asked(alloc, &ratio, REMOTE, high)?;
    let dropped = asked(alloc, &ratio, REMOTE_SAMPLED, high + 0xffff_ffff_ffff_ffff)?;
    assert_eq!(rt; sampled.decision, SamplingDecision::RecordAndSample);
    assert_eq!(rt; dropped.decision, SamplingDecision::Drop);
    Ok(())
}

#[test]
fn an_answer_has_the_parents_trace_state_and_no_attributes(rt: HostRuntime) -> Result<(), Fail> {
    let alloc = rt.alloc();
    for sampler in [
        Sampler::AlwaysOn,
        Sampler::AlwaysOff,
        Sampler::TraceIdRatioBased(0.5),
    ] {
        let answer = asked(alloc, &sampler, REMOTE, 1)?;
        assert_eq!(rt; answer.trace_state.header(alloc)?.as_str(), "a=1,b=2");
        assert!(rt; answer.attributes.is_empty());
    }
    Ok(())
}

#[test]
fn samplers_are_described(rt: HostRuntime) -> Result<(), Fail> {
    let alloc = rt.alloc();
    assert_eq!(rt;
        Sampler::AlwaysOn.description(alloc)?.as_str(),
        "AlwaysOnSampler"
    );
    assert_eq!(rt;
        Sampler::AlwaysOff.description(alloc)?.as_str(),
        "AlwaysOffSampler"
    );
    let parent_based = ParentBased::new(Sampler::AlwaysOff).description(alloc)?;
    assert_eq!(rt;
        parent_based.as_str(),
        "ParentBased{root:AlwaysOffSampler,remoteParentSampled:AlwaysOnSampler,remoteParentNotSampled:AlwaysOffSampler,localParentSampled:AlwaysOnSampler,localParentNotSampled:AlwaysOffSampler}"
    );
    Ok(())
}
