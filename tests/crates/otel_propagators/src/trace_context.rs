//! The propagator of `traceparent` and `tracestate`: the headers that it sets, and the contexts
//! that it extracts.
mod traceparent;

use opentelemetry::logs::AnyValue;
use opentelemetry::propagation::{PropagationError, TextMapPropagator};
use opentelemetry::trace::{SpanContext, SpanId, TraceFlags, TraceId, TraceState};
use opentelemetry::{Context, Key};
use otel_propagators::TraceContextPropagator;
use std::alloc::{AllocError, Global};
use std::collections::HashMap;
use std::process::Abort;
use std::test::Fail;
use test_support::{held, map_of};

/// Trace id 1, span id 1, and the flag `sampled`.
pub const TRACEPARENT: &str = "00-00000000000000000000000000000001-0000000000000001-01";

/// A context with an entry and a span context with ids 7 and 7 and a trace state.
fn given(alloc: Global) -> Result<Context, AllocError> {
    let Ok(state) = TraceState::from_str(alloc, "old=1") else {
        return Err(AllocError);
    };
    let old = SpanContext::new(
        TraceId::from(7u128),
        SpanId::from(7u64),
        TraceFlags::NOT_SAMPLED,
        false,
        state,
    );
    Context::new()
        .with_value(alloc, Key::from("name"), AnyValue::from("given"))?
        .with_remote_span_context(alloc, old)
}

/// The remote span context of these ids, flags and trace state.
fn remote(alloc: Global, ids: (u128, u64, u8), state: &str) -> Result<SpanContext, AllocError> {
    let Ok(state) = TraceState::from_str(alloc, state) else {
        return Err(AllocError);
    };
    let (trace_id, span_id, flags) = ids;
    Ok(SpanContext::new(
        TraceId::from(trace_id),
        SpanId::from(span_id),
        TraceFlags::new(flags),
        true,
        state,
    ))
}

/// The result of extracting the texts into the given context.
fn extract(
    alloc: Global,
    context: &Context,
    texts: &[(&str, &str)],
) -> Result<Context, AllocError> {
    let propagator = TraceContextPropagator::new(alloc)?;
    let carrier = map_of(alloc, texts)?;
    match propagator.extract_with_context(alloc, context, &carrier) {
        Ok(context) => Ok(context),
        Err(PropagationError::Memory(error)) => Err(error),
        Err(PropagationError::Refused) => Err(AllocError),
    }
}

/// Asserts that extracting the texts returns the given context with the remote span context with
/// these ids and flags and that trace state or, if there are none, the given context.
pub fn assert_extracted(
    rt: &impl Abort,
    alloc: Global,
    texts: &[(&str, &str)],
    expected: Option<(u128, u64, u8, &str)>,
) -> Result<(), Fail> {
    let given = given(alloc)?;
    let context = extract(alloc, &given, texts)?;
    let name = context.get("name");
    assert!(rt; matches!(name, Some(AnyValue::String(name)) if name.as_str() == "given"));
    match expected {
        Some((trace_id, span_id, flags, state)) => {
            let remote = remote(alloc, (trace_id, span_id, flags), state)?;
            assert!(rt; *context.span_context() == remote, "of {texts:?}");
        }
        None => assert!(rt;
            *context.span_context() == *given.span_context(),
            "of {texts:?}"
        ),
    }
    Ok(())
}

/// Asserts the result for only a `traceparent`.
pub fn assert_read(
    rt: &impl Abort,
    alloc: Global,
    traceparent: &str,
    expected: Option<(u128, u64, u8)>,
) -> Result<(), Fail> {
    let expected = expected.map(|(trace_id, span_id, flags)| (trace_id, span_id, flags, ""));
    assert_extracted(rt, alloc, &[("traceparent", traceparent)], expected)
}

/// The values of `traceparent` and `tracestate` injected for a span context.
fn inject(alloc: Global, span_context: SpanContext) -> Result<HashMap<String, String>, AllocError> {
    let propagator = TraceContextPropagator::new(alloc)?;
    let context = Context::new().with_remote_span_context(alloc, span_context)?;
    let mut carrier = map_of(alloc, &[("other", "stays")])?;
    match propagator.inject_context(&context, &mut carrier) {
        Ok(()) => Ok(carrier),
        Err(PropagationError::Memory(error)) => Err(error),
        Err(PropagationError::Refused) => Err(AllocError),
    }
}

/// Ids and flags, a trace state, and the two values.
const INJECTED: &[((u128, u64, u8), &str, &str, &str)] = &[
    ((1, 1, 1), "", TRACEPARENT, ""),
    (
        (0x4bf92f3577b34da6a3ce929d0e0e4736, 0x00f067aa0ba902b7, 0),
        "congo=t61rcWkgMzE,rojo=00f067aa0ba902b7",
        "00-4bf92f3577b34da6a3ce929d0e0e4736-00f067aa0ba902b7-00",
        "congo=t61rcWkgMzE,rojo=00f067aa0ba902b7",
    ),
    (
        (u128::MAX, u64::MAX, 255),
        "a= 1",
        "00-ffffffffffffffffffffffffffffffff-ffffffffffffffff-ff",
        "a= 1",
    ),
    ((0, 1, 1), "a=1", "none", "none"),
    ((1, 0, 1), "a=1", "none", "none"),
    ((0, 0, 0), "", "none", "none"),
];

#[test]
fn a_valid_span_context_is_set(rt: HostRuntime) -> Result<(), Fail> {
    let alloc = rt.alloc();
    for (ids, state, traceparent, tracestate) in INJECTED {
        let carrier = inject(alloc, remote(alloc, *ids, *state)?)?;
        assert_eq!(rt; held(&carrier, "traceparent"), *traceparent);
        assert_eq!(rt; held(&carrier, "tracestate"), *tracestate);
        assert_eq!(rt; held(&carrier, "other"), "stays");
        let len = if *traceparent == "none" { 1 } else { 3 };
        assert_eq!(rt; carrier.len(), len);
    }
    Ok(())
}

/// An injected context is extracted again.
#[test]
fn all_256_flags_go_there_and_back(rt: HostRuntime) -> Result<(), Fail> {
    let alloc = rt.alloc();
    for flags in 0..256u32 {
        let flags = flags as u8;
        let carrier = inject(alloc, remote(alloc, (1, 1, flags), "a=1")?)?;
        let digits = format!(in alloc; "{flags:02x}")?;
        assert!(rt; held(&carrier, "traceparent").ends_with(digits.as_str()));
        let texts = [
            ("traceparent", held(&carrier, "traceparent")),
            ("tracestate", held(&carrier, "tracestate")),
        ];
        assert_extracted(&rt, alloc, texts.as_slice(), Some((1, 1, flags, "a=1")))?;
    }
    Ok(())
}

/// A received context is sent on unchanged.
#[test]
fn headers_stay_on_their_way(rt: HostRuntime) -> Result<(), Fail> {
    let alloc = rt.alloc();
    for (ids, state, traceparent, tracestate) in INJECTED {
        let sent = inject(alloc, remote(alloc, *ids, *state)?)?;
        let texts = [
            ("traceparent", held(&sent, "traceparent")),
            ("tracestate", held(&sent, "tracestate")),
        ];
        let arrived = extract(alloc, &Context::new(), texts.as_slice())?;
        let sent_on = inject(alloc, arrived.span_context().clone()?)?;
        assert_eq!(rt; held(&sent_on, "traceparent"), *traceparent);
        assert_eq!(rt; held(&sent_on, "tracestate"), *tracestate);
    }
    Ok(())
}

/// Values of `tracestate` with a good `traceparent`, and the extracted trace state: a fault of any
/// kind gives the empty one, and the span context stays.
const TRACESTATES: &[(&str, &str)] = &[
    ("v=1", "v=1"),
    (" a=1 ,\tb=2", "a=1,b=2"),
    ("v=1,v=2", "v=1"),
    ("", ""),
    (" ,\t,", ""),
    (" a=1 ,b", ""),
    ("a=1,B=2", ""),
    ("a=1,b=2=3", ""),
    ("=", ""),
    ("a=1,=2", ""),
    ("a=1;b=2", ""),
    ("\u{e9}=1", ""),
];

#[test]
fn a_faulty_tracestate_is_the_empty_one(rt: HostRuntime) -> Result<(), Fail> {
    let alloc = rt.alloc();
    for (tracestate, state) in TRACESTATES {
        let texts = [("traceparent", TRACEPARENT), ("tracestate", *tracestate)];
        assert_extracted(&rt, alloc, texts.as_slice(), Some((1, 1, 1, *state)))?;
    }
    Ok(())
}

/// Without a good `traceparent` nothing is extracted, whatever the `tracestate`.
#[test]
fn a_tracestate_alone_gives_the_given_context(rt: HostRuntime) -> Result<(), Fail> {
    let alloc = rt.alloc();
    assert_extracted(&rt, alloc, &[], None)?;
    assert_extracted(&rt, alloc, &[("tracestate", "a=1")], None)?;
    assert_extracted(
        &rt,
        alloc,
        &[("traceparent", "00-"), ("tracestate", "a=1")],
        None,
    )?;
    assert_extracted(&rt, alloc, &[("Traceparent", TRACEPARENT)], None)
}

#[test]
fn the_fields_are_in_order(rt: HostRuntime) -> Result<(), Fail> {
    let propagator = TraceContextPropagator::new(rt.alloc())?;
    let mut fields = propagator.fields();
    assert_eq!(rt; fields.next(), Some("traceparent"));
    assert_eq!(rt; fields.next(), Some("tracestate"));
    assert_eq!(rt; fields.next(), None);
    Ok(())
}

/// 32 pairs with keys and values of 256 bytes, and the commas between them: the longest header.
fn longest(alloc: Global) -> Result<String, AllocError> {
    let key = "k".repeat(alloc, 254)?;
    let value = "v".repeat(alloc, 256)?;
    let mut text = String::new(alloc);
    for number in 10..42u32 {
        let comma = if number == 10 { "" } else { "," };
        text.push_str(format!(in alloc; "{comma}{number}{key}={value}")?.as_str())?;
    }
    Ok(text)
}

#[test]
fn the_longest_tracestate_goes_there_and_back(rt: HostRuntime) -> Result<(), Fail> {
    let alloc = rt.alloc();
    let text = longest(alloc)?;
    assert_eq!(rt; text.len(), 16447);
    let sent = inject(alloc, remote(alloc, (1, 1, 1), text.as_str())?)?;
    assert_eq!(rt; held(&sent, "traceparent"), TRACEPARENT);
    assert_eq!(rt; held(&sent, "tracestate"), text.as_str());
    let texts = [("traceparent", TRACEPARENT), ("tracestate", text.as_str())];
    assert_extracted(&rt, alloc, texts.as_slice(), Some((1, 1, 1, text.as_str())))?;
    let arrived = extract(alloc, &Context::new(), texts.as_slice())?;
    let sent_on = inject(alloc, arrived.span_context().clone()?)?;
    assert_eq!(rt; held(&sent_on, "tracestate"), text.as_str());
    Ok(())
}
