//! The traces that a ratio samples, and its printed text.
use opentelemetry::Context;
use opentelemetry::trace::{SpanKind, TraceId};
use otel_sdk::trace::{Sampler, SamplingDecision, SamplingParameters, ShouldSample};
use std::alloc::{AllocError, Global};
use std::test::Fail;

/// The high half of the trace ids, which is ignored.
const HIGH: u128 = 0xffff_ffff_ffff_ffff_0000_0000_0000_0000;

/// Returns whether a ratio samples a root of the trace with this low half.
fn samples(alloc: Global, ratio: f64, low: u64) -> Result<bool, AllocError> {
    let sampler = Sampler::TraceIdRatioBased(ratio);
    let span = SamplingParameters {
        parent_context: &Context::new(),
        trace_id: TraceId::from(HIGH + low as u128),
        name: "work",
        span_kind: SpanKind::Internal,
        attributes: &[],
        links: &[],
        start_time: None,
    };
    let answer = sampler.should_sample(alloc, &span)?;
    Ok(answer.decision == SamplingDecision::RecordAndSample)
}

/// 2 ^ -63, 2 ^ -64, the smallest double above 0, infinity and NaN.
const LEAST: f64 = 1.0842021724855044e-19;

const TOO_SMALL: f64 = 5.421010862427522e-20;

const SUBNORMAL: f64 = 5e-324;

/// A ratio, the low half of a trace id, and whether the trace is sampled.
const TRACES: &[(f64, u64, bool)] = &[
    (0.5, 0x7fff_ffff_ffff_ffff, true),
    (0.5, 0x8000_0000_0000_0000, false),
    (0.1, 0x1999_9999_9999_99ff, true),
    (0.1, 0x1999_9999_9999_9a00, false),
    (0.25, 0, true),
    (LEAST, 1, true),
    (LEAST, 2, false),
    (TOO_SMALL, 0, false),
    (SUBNORMAL, 0, false),
    (0.0, 0, false),
    (-0.0, 0, false),
    (-1.0, 0, false),
    (f64::NAN, 0, false),
    (f64::NEG_INFINITY, 0, false),
    (1.0, 0xffff_ffff_ffff_ffff, true),
    (2.0, 0xffff_ffff_ffff_ffff, true),
    (f64::INFINITY, 0xffff_ffff_ffff_ffff, true),
];

#[test]
fn a_ratio_samples_the_traces_below_its_bound(rt: HostRuntime) -> Result<(), Fail> {
    let alloc = rt.alloc();
    for (ratio, low, is_sampled) in TRACES {
        assert_eq!(rt; samples(alloc, *ratio, *low)?, *is_sampled);
    }
    Ok(())
}

/// Increasing ratios, each of which samples the trace with the number 9223372036854775.
const GREATER: &[f64] = &[0.001, 0.1, 0.5, 1.0];

#[test]
fn a_trace_sampled_at_a_ratio_is_sampled_at_greater_ones(rt: HostRuntime) -> Result<(), Fail> {
    let alloc = rt.alloc();
    for ratio in GREATER {
        assert!(rt; samples(alloc, *ratio, 2 * 9223372036854775)?);
    }
    assert!(rt; !samples(alloc, 0.001, 2 * 9223372036854776)?);
    Ok(())
}

/// A ratio and its description.
const DESCRIPTIONS: &[(f64, &str)] = &[
    (0.0001, "TraceIdRatioBased{0.0001}"),
    (0.5, "TraceIdRatioBased{0.5}"),
    (2.0, "TraceIdRatioBased{1}"),
    (1.0, "TraceIdRatioBased{1}"),
    (f64::NAN, "TraceIdRatioBased{0}"),
    (0.0, "TraceIdRatioBased{0}"),
    (-0.0, "TraceIdRatioBased{0}"),
    (-1.0, "TraceIdRatioBased{0}"),
    (
        LEAST,
        "TraceIdRatioBased{0.00000000000000000010842021724855044}",
    ),
];

#[test]
fn a_description_has_the_ratio_that_counts(rt: HostRuntime) -> Result<(), Fail> {
    let alloc = rt.alloc();
    for (ratio, description) in DESCRIPTIONS {
        let text = Sampler::TraceIdRatioBased(*ratio).description(alloc)?;
        assert_eq!(rt; text.as_str(), *description);
    }
    Ok(())
}
