//! Both headers there and back: an extracted context is injected as the same headers, by both
//! propagators in turn, by a composite of both and by a join, in each order.
use opentelemetry::baggage::{Baggage, BaggageMetadata};
use opentelemetry::propagation::{PropagationError, TextMapCompositePropagator, TextMapPropagator};
use opentelemetry::trace::{SpanContext, SpanId, TraceFlags, TraceId, TraceState};
use opentelemetry::{Context, Key, StringValue};
use otel_propagators::{BaggagePropagator, TraceContextPropagator, W3cPropagator};
use std::alloc::{AllocError, Global};
use std::collections::HashMap;
use std::process::Abort;
use std::test::Fail;

/// Ids, flags, the pairs of a trace state, the members of a baggage, and the three headers.
#[derive(Clone, Copy)]
struct Row {
    ids: (u128, u64, u8),
    state: &'static [(&'static str, &'static str)],
    baggage: &'static [(&'static str, &'static str, &'static str)],
    headers: &'static [(&'static str, &'static str)],
}

/// The examples of the W3C documents, and the least and greatest ids and flags.
const ROWS: &[Row] = &[
    Row {
        ids: (1, 1, 1),
        state: &[],
        baggage: &[],
        headers: &[
            (
                "traceparent",
                "00-00000000000000000000000000000001-0000000000000001-01",
            ),
            ("tracestate", ""),
            ("baggage", ""),
        ],
    },
    Row {
        ids: (0x4bf92f3577b34da6a3ce929d0e0e4736, 0x00f067aa0ba902b7, 0),
        state: &[("congo", "t61rcWkgMzE"), ("rojo", "00f067aa0ba902b7")],
        baggage: &[
            ("userId", "Am\u{e9}lie", ""),
            ("serverNode", "DF 28", ""),
            ("isProduction", "false", ""),
        ],
        headers: &[
            (
                "traceparent",
                "00-4bf92f3577b34da6a3ce929d0e0e4736-00f067aa0ba902b7-00",
            ),
            ("tracestate", "congo=t61rcWkgMzE,rojo=00f067aa0ba902b7"),
            (
                "baggage",
                "userId=Am%C3%A9lie,serverNode=DF%2028,isProduction=false",
            ),
        ],
    },
    Row {
        ids: (u128::MAX, u64::MAX, 255),
        state: &[("a", " 1")],
        baggage: &[
            ("key1", "value1", "property1;property2"),
            ("k", "50%", ""),
            ("key3", "", "propertyKey=propertyValue"),
        ],
        headers: &[
            (
                "traceparent",
                "00-ffffffffffffffffffffffffffffffff-ffffffffffffffff-ff",
            ),
            ("tracestate", "a= 1"),
            (
                "baggage",
                "key1=value1;property1;property2,k=50%25,key3=;propertyKey=propertyValue",
            ),
        ],
    },
    // An id is 0: no header contains the span.
    Row {
        ids: (1, 0, 1),
        state: &[("a", "1")],
        baggage: &[("k", ",;=", "")],
        headers: &[("baggage", "k=%2C%3B%3D")],
    },
];

fn context_of(alloc: Global, row: &Row) -> Result<Context, AllocError> {
    let (trace_id, span_id, flags) = row.ids;
    let Ok(state) = TraceState::from_key_value(alloc, row.state) else {
        return Err(AllocError);
    };
    let span_context = SpanContext::new(
        TraceId::from(trace_id),
        SpanId::from(span_id),
        TraceFlags::new(flags),
        false,
        state,
    );
    let mut baggage = Baggage::new(alloc);
    for (key, value, metadata) in row.baggage {
        drop(baggage.insert_with_metadata(
            Key::from(*key),
            StringValue::from(*value),
            BaggageMetadata::new(alloc, *metadata)?,
        )?);
    }
    Context::new()
        .with_remote_span_context(alloc, span_context)?
        .with_baggage(alloc, baggage)
}

/// How both propagators are used.
#[derive(Clone, Copy, Debug)]
enum Way {
    InTurn,
    Composite,
    Join,
}

const WAYS: [Way; 3] = [Way::InTurn, Way::Composite, Way::Join];

type Members = Vec<Box<dyn TextMapPropagator>>;

/// Both propagators, with the propagator of `baggage` first or last.
fn members(alloc: Global, baggage_first: bool) -> Result<Members, AllocError> {
    let trace: Box<dyn TextMapPropagator> = Box::new(alloc, TraceContextPropagator::new(alloc)?)?;
    let baggage: Box<dyn TextMapPropagator> = Box::new(alloc, BaggagePropagator::new(alloc)?)?;
    Ok(if baggage_first {
        vec![in alloc; baggage, trace]?
    } else {
        vec![in alloc; trace, baggage]?
    })
}

/// The composites used in turn in this way.
fn composites(
    alloc: Global,
    way: Way,
    baggage_first: bool,
) -> Result<Vec<TextMapCompositePropagator>, AllocError> {
    let members = members(alloc, baggage_first)?;
    let mut composites = Vec::new(alloc);
    match way {
        Way::Composite => composites.push(TextMapCompositePropagator::new(alloc, members)?)?,
        Way::InTurn => {
            for member in members {
                let alone = vec![in alloc; member]?;
                composites.push(TextMapCompositePropagator::new(alloc, alone)?)?;
            }
        }
        Way::Join => {
            let mut all = TextMapCompositePropagator::new(alloc, Vec::new(alloc))?;
            for member in members {
                let alone = vec![in alloc; member]?;
                all = all.join(alloc, TextMapCompositePropagator::new(alloc, alone)?)?;
            }
            composites.push(all)?;
        }
    }
    Ok(composites)
}

fn given<T>(outcome: Result<T, PropagationError>) -> Result<T, AllocError> {
    match outcome {
        Ok(given) => Ok(given),
        Err(_) => Err(AllocError),
    }
}

fn inject(
    alloc: Global,
    way: Way,
    baggage_first: bool,
    context: &Context,
) -> Result<HashMap<String, String>, AllocError> {
    let mut carrier = HashMap::new(alloc);
    for composite in &composites(alloc, way, baggage_first)? {
        given(composite.inject_context(context, &mut carrier))?;
    }
    Ok(carrier)
}

fn extract(
    alloc: Global,
    way: Way,
    baggage_first: bool,
    carrier: &HashMap<String, String>,
) -> Result<Context, AllocError> {
    let mut context = Context::new();
    for composite in &composites(alloc, way, baggage_first)? {
        context = given(composite.extract_with_context(alloc, &context, carrier))?;
    }
    Ok(context)
}

/// Asserts that the carrier has these headers and no others.
fn assert_headers(
    rt: &impl Abort,
    carrier: &HashMap<String, String>,
    headers: &[(&str, &str)],
    way: Way,
) {
    assert!(rt; carrier.len() == headers.len(), "{way:?}: {headers:?}");
    for (key, value) in headers {
        let held = carrier.get(*key);
        assert!(rt;
            matches!(held, Some(held) if held.as_str() == *value),
            "{way:?}: {key}: {value}"
        );
    }
}

/// Asserts that a context has the span context and the members of a row.
fn assert_comes_back(
    rt: &impl Abort,
    alloc: Global,
    back: &Context,
    row: &Row,
) -> Result<(), Fail> {
    let sent = context_of(alloc, row)?;
    let (span, arrived) = (sent.span_context(), back.span_context());
    assert!(rt; back.has_active_span() == span.is_valid());
    if span.is_valid() {
        assert!(rt; arrived.is_remote());
        assert!(rt; arrived.trace_id() == span.trace_id());
        assert!(rt; arrived.span_id() == span.span_id());
        assert!(rt; arrived.trace_flags() == span.trace_flags());
        assert!(rt; *arrived.trace_state() == *span.trace_state());
    }
    let Some(baggage) = back.baggage() else {
        return Err(Fail::from(AllocError));
    };
    assert!(rt; baggage.len() == row.baggage.len());
    for (member, (key, value, metadata)) in baggage.iter().zip(row.baggage) {
        let (name, (text, properties)) = member;
        assert!(rt; name.as_str() == *key);
        assert!(rt; text.as_str() == *value);
        assert!(rt; properties.as_str() == *metadata);
    }
    Ok(())
}

#[test]
fn what_is_extracted_is_injected_again_as_the_same_headers(rt: HostRuntime) -> Result<(), Fail> {
    let alloc = rt.alloc();
    for row in ROWS {
        let sent = context_of(alloc, row)?;
        for way in WAYS {
            for (there, back) in [(false, false), (false, true), (true, false), (true, true)] {
                let carrier = inject(alloc, way, there, &sent)?;
                assert_headers(&rt, &carrier, row.headers, way);
                let arrived = extract(alloc, way, back, &carrier)?;
                assert_comes_back(&rt, alloc, &arrived, row)?;
                let again = inject(alloc, way, there, &arrived)?;
                assert_headers(&rt, &again, row.headers, way);
            }
        }
    }
    Ok(())
}

/// Reading trims blanks at the end of a trace state's value (RFC 7230, section 3.2.3), so they are
/// lost, and the second header is shorter than the first.
#[test]
fn blanks_at_the_end_of_a_trace_state_value_are_cut(rt: HostRuntime) -> Result<(), Fail> {
    let alloc = rt.alloc();
    let row = Row {
        ids: (1, 1, 1),
        state: &[("a", "1 \t"), ("b", " 2 ")],
        baggage: &[],
        headers: &[],
    };
    let carrier = inject(alloc, Way::Composite, false, &context_of(alloc, &row)?)?;
    assert!(rt; matches!(carrier.get("tracestate"), Some(held) if held.as_str() == "a=1 \t,b= 2 "));
    let back = extract(alloc, Way::Composite, false, &carrier)?;
    let again = inject(alloc, Way::Composite, false, &back)?;
    assert!(rt; matches!(again.get("tracestate"), Some(held) if held.as_str() == "a=1,b= 2"));
    Ok(())
}

/// A comma in metadata starts another member: the condition of the law is needed.
#[test]
fn a_comma_in_metadata_begins_another_member(rt: HostRuntime) -> Result<(), Fail> {
    let alloc = rt.alloc();
    let row = Row {
        ids: (0, 0, 0),
        state: &[],
        baggage: &[("a", "1", "x,b=2")],
        headers: &[],
    };
    let expected = Row {
        ids: (0, 0, 0),
        state: &[],
        baggage: &[("a", "1", "x"), ("b", "2", "")],
        headers: &[],
    };
    let carrier = inject(alloc, Way::InTurn, false, &context_of(alloc, &row)?)?;
    let back = extract(alloc, Way::InTurn, false, &carrier)?;
    assert_comes_back(&rt, alloc, &back, &expected)
}

/// Without a valid span, nothing is set for it, so an older `traceparent` of the carrier stays, and
/// its span is extracted.
#[test]
fn an_older_traceparent_stays_without_a_valid_span(rt: HostRuntime) -> Result<(), Fail> {
    let alloc = rt.alloc();
    let older = &ROWS[0];
    let mut carrier = inject(alloc, Way::InTurn, false, &context_of(alloc, older)?)?;
    for composite in &composites(alloc, Way::InTurn, false)? {
        given(composite.inject_context(&Context::new(), &mut carrier))?;
    }
    let back = extract(alloc, Way::InTurn, false, &carrier)?;
    assert_comes_back(&rt, alloc, &back, older)
}

#[test]
fn one_propagator_carries_all_headers_there_and_back(rt: HostRuntime) -> Result<(), Fail> {
    let alloc = rt.alloc();
    let propagator = W3cPropagator::new(alloc)?;
    for row in ROWS {
        let mut carrier = HashMap::new(alloc);
        given(propagator.inject_context(&context_of(alloc, row)?, &mut carrier))?;
        assert_headers(&rt, &carrier, row.headers, Way::Composite);
        let back = given(propagator.extract_with_context(alloc, &Context::new(), &carrier))?;
        assert_comes_back(&rt, alloc, &back, row)?;
    }
    Ok(())
}

#[test]
fn one_propagator_names_all_fields(rt: HostRuntime) -> Result<(), Fail> {
    let propagator = W3cPropagator::new(rt.alloc())?;
    let mut fields = propagator.fields();
    for name in ["traceparent", "tracestate", "baggage"] {
        assert!(rt; fields.next() == Some(name));
    }
    assert!(rt; fields.next().is_none());
    Ok(())
}
