//! A deferred decision of B3 is sent on as deferred, until a span here or a header decides.
use crate::b3::{Headers, IDS, SPAN, TRACE, ample, both, given, kept, span_context, with_debug};
use opentelemetry::Context;
use opentelemetry::propagation::TextMapPropagator;
use std::alloc::{AllocError, Global};
use std::collections::HashMap;
use std::process::Abort;
use std::test::Fail;
use test_support::{held, map_of};

/// The deferred span, as the value of `b3`.
const TEXT: &str = "80f198ee56343ba864fe8b2a57d3eff7-e457b5a2e4d86bd1";

const SINGLE: Headers = &[("b3", TEXT)];

const MULTI: Headers = &[("x-b3-traceid", TRACE), ("x-b3-spanid", SPAN)];

/// The context of headers that are extracted into another.
fn read(alloc: Global, into: &Context, headers: Headers) -> Result<Context, AllocError> {
    let carrier = map_of(alloc, headers)?;
    let [single, _] = both(alloc)?;
    ample(single.extract_with_context(alloc, into, &carrier))
}

/// Asserts that both propagators set these headers and no others.
fn assert_sent(
    rt: &impl Abort,
    alloc: Global,
    context: &Context,
    expected: [Headers; 2],
) -> Result<(), Fail> {
    for (propagator, headers) in both(alloc)?.into_iter().zip(expected) {
        let mut carrier = HashMap::new(alloc);
        ample(propagator.inject_context(context, &mut carrier))?;
        assert_eq!(rt; carrier.len(), headers.len());
        for (key, value) in headers {
            assert_eq!(rt; held(&carrier, *key), *value);
        }
    }
    Ok(())
}

/// The headers in both forms of the span with a state.
const DENIED: [Headers; 2] = [
    &[("b3", "80f198ee56343ba864fe8b2a57d3eff7-e457b5a2e4d86bd1-0")],
    &[
        ("x-b3-traceid", TRACE),
        ("x-b3-spanid", SPAN),
        ("x-b3-sampled", "0"),
    ],
];

const ACCEPTED: [Headers; 2] = [
    &[("b3", "80f198ee56343ba864fe8b2a57d3eff7-e457b5a2e4d86bd1-1")],
    &[
        ("x-b3-traceid", TRACE),
        ("x-b3-spanid", SPAN),
        ("x-b3-sampled", "1"),
    ],
];

const DEBUGGED: [Headers; 2] = [
    &[("b3", "80f198ee56343ba864fe8b2a57d3eff7-e457b5a2e4d86bd1-d")],
    &[
        ("x-b3-traceid", TRACE),
        ("x-b3-spanid", SPAN),
        ("x-b3-flags", "1"),
    ],
];

const OTHER: [Headers; 2] = [
    &[("b3", "00000000000000000000000000000001-0000000000000001-0")],
    &[
        ("x-b3-traceid", "00000000000000000000000000000001"),
        ("x-b3-spanid", "0000000000000001"),
        ("x-b3-sampled", "0"),
    ],
];

/// Headers that are sent on as they are, in both forms, with upper-case digits and a short trace id
/// in the usual form.
const SENT_ON: &[(Headers, [Headers; 2])] = &[
    (SINGLE, [SINGLE, MULTI]),
    (MULTI, [SINGLE, MULTI]),
    (
        &[
            ("x-b3-traceid", TRACE),
            ("x-b3-spanid", SPAN),
            ("x-b3-flags", "0"),
        ],
        [SINGLE, MULTI],
    ),
    (
        &[("b3", " 64FE8B2A57D3EFF7-E457B5A2E4D86BD1 ")],
        [
            &[("b3", "000000000000000064fe8b2a57d3eff7-e457b5a2e4d86bd1")],
            &[
                ("x-b3-traceid", "000000000000000064fe8b2a57d3eff7"),
                ("x-b3-spanid", "e457b5a2e4d86bd1"),
            ],
        ],
    ),
];

#[test]
fn it_is_sent_on_without_a_state(rt: HostRuntime) -> Result<(), Fail> {
    let alloc = rt.alloc();
    for (headers, expected) in SENT_ON {
        let context = read(alloc, &given(alloc)?, *headers)?;
        assert!(rt; !context.span_context().trace_flags().is_sampled());
        assert_sent(&rt, alloc, &context, *expected)?;
        // The given debug flag isn't the one of these headers.
        let debugged = with_debug(alloc, &given(alloc)?, true)?;
        assert_sent(&rt, alloc, &read(alloc, &debugged, *headers)?, *expected)?;
    }
    Ok(())
}

/// Headers without a span.
const NO_SPAN: &[Headers] = &[&[("b3", "0")], &[("b3", "1")], &[("b3", "d")], &[]];

#[test]
fn a_later_header_decides(rt: HostRuntime) -> Result<(), Fail> {
    let alloc = rt.alloc();
    let left = read(alloc, &Context::new(), SINGLE)?;
    assert!(rt; kept(&left) == Some(TEXT));
    for expected in [DENIED, ACCEPTED, DEBUGGED, OTHER] {
        for headers in expected {
            let context = read(alloc, &left, headers)?;
            assert!(rt; kept(&context).is_none());
            assert_sent(&rt, alloc, &context, expected)?;
            let again = read(alloc, &context, MULTI)?;
            assert_sent(&rt, alloc, &again, [SINGLE, MULTI])?;
        }
    }
    for headers in NO_SPAN {
        let context = read(alloc, &left, *headers)?;
        assert_sent(&rt, alloc, &context, [SINGLE, MULTI])?;
    }
    Ok(())
}

/// Ids and flags of a span context that replaces the deferred one, whether it is remote, and what
/// is sent.
const DECIDED: &[((u128, u64, u8), bool, [Headers; 2])] = &[
    ((IDS.0, IDS.1, 0), true, [SINGLE, MULTI]),
    ((IDS.0, IDS.1, 0), false, DENIED),
    ((IDS.0, IDS.1, 1), false, ACCEPTED),
    ((IDS.0, IDS.1, 1), true, ACCEPTED),
    ((1, 1, 0), false, OTHER),
    ((1, 1, 0), true, OTHER),
];

#[test]
fn another_span_decides(rt: HostRuntime) -> Result<(), Fail> {
    let alloc = rt.alloc();
    let left = read(alloc, &Context::new(), MULTI)?;
    for (ids, is_remote, expected) in DECIDED {
        let active = span_context(*ids, *is_remote);
        let context = left.with_remote_span_context(alloc, active)?;
        assert_sent(&rt, alloc, &context, *expected)?;
    }
    assert_sent(&rt, alloc, &with_debug(alloc, &left, true)?, DEBUGGED)
}

/// A deferred decision sets no `x-b3-sampled`, so an older one still counts.
#[test]
fn an_older_state_stays(rt: HostRuntime) -> Result<(), Fail> {
    let alloc = rt.alloc();
    let left = read(alloc, &Context::new(), MULTI)?;
    let [_, multi] = both(alloc)?;
    let mut carrier = map_of(alloc, &[("x-b3-sampled", "1")])?;
    ample(multi.inject_context(&left, &mut carrier))?;
    let back = ample(multi.extract_with_context(alloc, &Context::new(), &carrier))?;
    assert!(rt; *back.span_context() == span_context((IDS.0, IDS.1, 1), true));
    Ok(())
}
