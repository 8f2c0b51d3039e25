//! The headers that the propagator of B3 sets in both forms, alone and in a composite.
use crate::b3::{
    Headers, IDS, Ids, SPAN, State, TRACE, ample, assert_extracted, both, given, span_context,
    with_debug,
};
use opentelemetry::Context;
use opentelemetry::propagation::{
    Injector, PropagationError, TextMapCompositePropagator, TextMapPropagator,
};
use otel_propagators::{B3Propagator, W3cPropagator};
use std::alloc::{AllocError, Global};
use std::collections::HashMap;
use std::process::Abort;
use std::test::Fail;
use test_support::{held, map_of};

/// A span context, whether its context is debugged, and the headers in both forms.
const INJECTED: &[(Ids, Option<bool>, Headers, Headers)] = &[
    (
        (IDS.0, IDS.1, 1),
        None,
        &[("b3", "80f198ee56343ba864fe8b2a57d3eff7-e457b5a2e4d86bd1-1")],
        &[
            ("x-b3-traceid", TRACE),
            ("x-b3-spanid", SPAN),
            ("x-b3-sampled", "1"),
        ],
    ),
    (
        (IDS.0, IDS.1, 0),
        None,
        &[("b3", "80f198ee56343ba864fe8b2a57d3eff7-e457b5a2e4d86bd1-0")],
        &[
            ("x-b3-traceid", TRACE),
            ("x-b3-spanid", SPAN),
            ("x-b3-sampled", "0"),
        ],
    ),
    // Debug, whatever the flags.
    (
        (IDS.0, IDS.1, 1),
        Some(true),
        &[("b3", "80f198ee56343ba864fe8b2a57d3eff7-e457b5a2e4d86bd1-d")],
        &[
            ("x-b3-traceid", TRACE),
            ("x-b3-spanid", SPAN),
            ("x-b3-flags", "1"),
        ],
    ),
    (
        (IDS.0, IDS.1, 0),
        Some(true),
        &[("b3", "80f198ee56343ba864fe8b2a57d3eff7-e457b5a2e4d86bd1-d")],
        &[
            ("x-b3-traceid", TRACE),
            ("x-b3-spanid", SPAN),
            ("x-b3-flags", "1"),
        ],
    ),
    (
        (IDS.0, IDS.1, 1),
        Some(false),
        &[("b3", "80f198ee56343ba864fe8b2a57d3eff7-e457b5a2e4d86bd1-1")],
        &[
            ("x-b3-traceid", TRACE),
            ("x-b3-spanid", SPAN),
            ("x-b3-sampled", "1"),
        ],
    ),
    // Other flags than `sampled`, and short numbers.
    (
        (0xab, 0xc, 254),
        None,
        &[("b3", "000000000000000000000000000000ab-000000000000000c-0")],
        &[
            ("x-b3-traceid", "000000000000000000000000000000ab"),
            ("x-b3-spanid", "000000000000000c"),
            ("x-b3-sampled", "0"),
        ],
    ),
    (
        (u128::MAX, u64::MAX, 255),
        None,
        &[("b3", "ffffffffffffffffffffffffffffffff-ffffffffffffffff-1")],
        &[
            ("x-b3-traceid", "ffffffffffffffffffffffffffffffff"),
            ("x-b3-spanid", "ffffffffffffffff"),
            ("x-b3-sampled", "1"),
        ],
    ),
    // An id of 0.
    ((0, 1, 1), None, &[], &[]),
    ((1, 0, 1), Some(true), &[], &[]),
    ((0, 0, 0), None, &[], &[]),
];

fn assert_headers(rt: &impl Abort, carrier: &HashMap<String, String>, headers: Headers) {
    assert_eq!(rt; held(carrier, "other"), "stays");
    assert_eq!(rt; carrier.len(), headers.len() + 1);
    for (key, value) in headers {
        assert_eq!(rt; held(carrier, *key), *value);
    }
}

/// Each form injects its headers. Both forms extract the span again, as a remote one.
#[test]
fn a_span_goes_there_and_back_in_both_forms(rt: HostRuntime) -> Result<(), Fail> {
    let alloc = rt.alloc();
    for (ids, debug, single, multi) in INJECTED {
        let mut sent = given(alloc)?.with_remote_span_context(alloc, span_context(*ids, false))?;
        if let Some(debug) = debug {
            sent = with_debug(alloc, &sent, *debug)?;
        }
        let debug = *debug == Some(true);
        let [with_single, with_multi] = both(alloc)?;
        for (propagator, headers) in [(&with_single, single), (&with_multi, multi)] {
            let mut carrier = map_of(alloc, &[("other", "stays")])?;
            ample(propagator.inject_context(&sent, &mut carrier))?;
            assert_headers(&rt, &carrier, *headers);
            let (trace_id, span_id, flags) = *ids;
            let state = match (debug, flags % 2) {
                (true, _) => State::Debug,
                (false, 0) => State::Denied,
                (false, _) => State::Accepted,
            };
            let back = if headers.is_empty() {
                None
            } else {
                Some((trace_id, span_id, state))
            };
            assert_extracted(&rt, alloc, *headers, back)?;
        }
    }
    Ok(())
}

/// An older `b3` or `x-b3-flags` isn't replaced by multiple headers, so it still counts.
#[test]
fn older_headers_stay(rt: HostRuntime) -> Result<(), Fail> {
    let alloc = rt.alloc();
    let sent = given(alloc)?.with_remote_span_context(alloc, span_context((1, 1, 0), false))?;
    let older = "80f198ee56343ba864fe8b2a57d3eff7-e457b5a2e4d86bd1-1";
    let [_, multi] = both(alloc)?;
    for (header, expected) in [
        (("b3", older), (IDS.0, IDS.1, 1)),
        (("x-b3-flags", "1"), (1, 1, 1)),
        (("x-b3-sampled", "1"), (1, 1, 0)),
    ] {
        let mut carrier = map_of(alloc, &[header])?;
        ample(multi.inject_context(&sent, &mut carrier))?;
        let back = ample(multi.extract_with_context(alloc, &Context::new(), &carrier))?;
        assert!(rt;
            *back.span_context() == span_context(expected, true),
            "of {header:?}"
        );
    }
    Ok(())
}

#[test]
fn the_fields_are_the_headers_of_the_form(rt: HostRuntime) -> Result<(), Fail> {
    let [single, multi] = both(rt.alloc())?;
    let mut fields = single.fields();
    assert!(rt; fields.next() == Some("b3"));
    assert!(rt; fields.next().is_none());
    let mut fields = multi.fields();
    for name in ["x-b3-traceid", "x-b3-spanid", "x-b3-sampled", "x-b3-flags"] {
        assert!(rt; fields.next() == Some(name));
    }
    assert!(rt; fields.next().is_none());
    Ok(())
}

/// A composite of the headers of the W3C and of B3, the last of which wins if both are received.
fn composite(alloc: Global, b3: B3Propagator) -> Result<TextMapCompositePropagator, AllocError> {
    let w3c: Box<dyn TextMapPropagator> = Box::new(alloc, W3cPropagator::new(alloc)?)?;
    let b3: Box<dyn TextMapPropagator> = Box::new(alloc, b3)?;
    TextMapCompositePropagator::new(alloc, vec![in alloc; w3c, b3]?)
}

#[test]
fn it_works_beside_the_headers_of_the_w3c(rt: HostRuntime) -> Result<(), Fail> {
    let alloc = rt.alloc();
    let traceparent = "00-80f198ee56343ba864fe8b2a57d3eff7-e457b5a2e4d86bd1-01";
    let sent = Context::new().with_remote_span_context(
        alloc,
        span_context((IDS.0, IDS.1, 1), false),
    )?;
    for propagator in both(alloc)? {
        let is_single = propagator.fields().count() == 1;
        let composite = composite(alloc, propagator)?;
        let mut carrier = HashMap::new(alloc);
        ample(composite.inject_context(&sent, &mut carrier))?;
        assert_eq!(rt; held(&carrier, "traceparent"), traceparent);
        assert_eq!(rt; carrier.len(), if is_single { 4 } else { 6 });
        let empty = Context::new();
        let back = ample(composite.extract_with_context(alloc, &empty, &carrier))?;
        assert!(rt; *back.span_context() == span_context((IDS.0, IDS.1, 1), true));
        let alone = map_of(alloc, &[("traceparent", traceparent)])?;
        let back = ample(composite.extract_with_context(alloc, &empty, &alone))?;
        assert!(rt; *back.span_context() == span_context((IDS.0, IDS.1, 1), true));
        let other = "00-00000000000000000000000000000001-0000000000000001-00";
        let differing = map_of(
            alloc,
            &[
                ("traceparent", other),
                ("x-b3-traceid", TRACE),
                ("x-b3-spanid", SPAN),
            ],
        )?;
        let back = ample(composite.extract_with_context(alloc, &empty, &differing))?;
        assert!(rt; *back.span_context() == span_context((IDS.0, IDS.1, 0), true));
    }
    Ok(())
}

/// A carrier that accepts this number of texts, and refuses the others.
#[derive(Drop)]
struct Small {
    texts: HashMap<String, String>,
    room: usize,
    refusals: u64,
}

impl Injector for Small {
    ghost use Rattle.opentelemetry.specs.Carrier.{text_map};

    ghost state = { λ c. record { texts = text_map c.texts.entries; refusals = c.refusals } };

    fn set(&mut self, key: &str, value: String) -> Result<(), PropagationError> {
        if self.texts.len() == self.room {
            self.refusals += 1;
            return Err(PropagationError::Refused);
        }
        self.texts.set(key, value)
    }
}

#[test]
fn a_carrier_that_refuses_has_a_prefix_of_the_headers(rt: HostRuntime) -> Result<(), Fail> {
    let alloc = rt.alloc();
    let sent = Context::new().with_remote_span_context(alloc, span_context((1, 1, 1), false))?;
    for (propagator, len) in both(alloc)?.into_iter().zip([1usize, 3]) {
        for room in 0..len + 1 {
            let texts = HashMap::new(alloc);
            let mut carrier = Small {
                texts,
                room,
                refusals: 0,
            };
            let answer = propagator.inject_context(&sent, &mut carrier);
            assert!(rt; answer.is_ok() == (room == len));
            assert_eq!(rt; carrier.texts.len(), room);
            let keys = ["x-b3-traceid", "x-b3-spanid", "x-b3-sampled"];
            for key in keys.iter().take(if len == 3 { room } else { 0 }) {
                assert!(rt; carrier.texts.contains_key(*key));
            }
        }
    }
    Ok(())
}
