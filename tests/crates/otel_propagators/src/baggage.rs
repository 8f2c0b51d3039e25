//! The propagator of `baggage`: the header that it sets, and the baggage that it extracts.
mod sizes;

use opentelemetry::logs::AnyValue;
use opentelemetry::propagation::{PropagationError, TextMapPropagator};
use opentelemetry::{Context, Key};
use otel_propagators::BaggagePropagator;
use std::alloc::{AllocError, Global};
use std::collections::HashMap;
use std::test::Fail;
use test_support::{Member, baggage_of, map_of};

fn memory_of(error: PropagationError) -> AllocError {
    drop(error);
    AllocError
}

/// The header that is set for the context.
pub fn injected(alloc: Global, context: &Context) -> Result<String, AllocError> {
    let mut carrier: HashMap<String, String> = HashMap::new(alloc);
    let propagator = BaggagePropagator::new(alloc)?;
    propagator
        .inject_context(context, &mut carrier)
        .map_err(memory_of)?;
    carrier.remove("baggage").ok_or(AllocError)
}

/// The context extracted from a carrier with this header.
pub fn extracted(alloc: Global, context: &Context, header: &str) -> Result<Context, AllocError> {
    let carrier = map_of(alloc, &[("baggage", header)])?;
    let propagator = BaggagePropagator::new(alloc)?;
    propagator
        .extract_with_context(alloc, context, &carrier)
        .map_err(memory_of)
}

/// Whether the context has a baggage with these members, in this order.
pub fn holds(context: &Context, members: &[Member]) -> bool {
    let Some(baggage) = context.baggage() else {
        return false;
    };
    let mut expected = members.iter();
    for (key, pair) in baggage.iter() {
        let Some((name, value, metadata)) = expected.next() else {
            return false;
        };
        if key.as_str() != *name || pair.0.as_str() != *value || pair.1.as_str() != *metadata {
            return false;
        }
    }
    expected.next().is_none()
}

/// Headers, and the members read from them.
const READINGS: &[(&str, &[Member])] = &[
    ("", &[]),
    (" \t ", &[]),
    (",,a=1, ,", &[("a", "1", "")]),
    (
        " k = a%20b ;m=1 , x , y=%ff,z=%",
        &[("k", "a b", "m=1"), ("z", "%", "")],
    ),
    ("a=1,b=2,a=3", &[("a", "3", ""), ("b", "2", "")]),
    ("a=1;p,a=2", &[("a", "2", "")]),
    ("a=1;x,b=2", &[("a", "1", "x"), ("b", "2", "")]),
    // Properties are stored as they are, except white space at both ends, including Unicode's.
    ("a=1;p;q=2;r = 3", &[("a", "1", "p;q=2;r = 3")]),
    ("a=1; \t p=1 ; q\t", &[("a", "1", "p=1 ; q")]),
    ("a=1;\u{2003}p%20\u{a0}", &[("a", "1", "p%20")]),
    ("a=1;", &[("a", "1", "")]),
    ("a=1;;", &[("a", "1", ";")]),
    // A `=` after the first `;` doesn't count.
    ("a;b=1", &[]),
    ("a;b=1,c=2", &[("c", "2", "")]),
    // The first `=` splits.
    ("a=b=c", &[("a", "b=c", "")]),
    ("a==", &[("a", "=", "")]),
    ("a=", &[("a", "", "")]),
    // Spaces and tabs are blanks, and other white space isn't.
    ("\ta \t=\t 1 \t", &[("a", "1", "")]),
    ("a=1 2", &[("a", "1 2", "")]),
    ("a=\u{a0}1", &[("a", "\u{a0}1", "")]),
    ("\u{a0}a=1", &[]),
    ("a=%20b%20", &[("a", " b ", "")]),
    // Percent signs, at the end too, and a `+`.
    ("a=100%", &[("a", "100%", "")]),
    ("a=%2", &[("a", "%2", "")]),
    ("a=%%41", &[("a", "%A", "")]),
    ("a=%41%zz%4", &[("a", "A%zz%4", "")]),
    ("a=%2541", &[("a", "%41", "")]),
    ("a=1+1", &[("a", "1+1", "")]),
    ("a=%2C%3b%3D", &[("a", ",;=", "")]),
    ("a=%c3%A9", &[("a", "\u{e9}", "")]),
    ("a=%00", &[("a", "\0", "")]),
    ("a=\u{e9}", &[("a", "\u{e9}", "")]),
    // Values that aren't UTF-8 when decoded.
    (
        "a=%ff,b=%C3,c=%ed%a0%80,d=%f0%9f%98%80",
        &[("d", "\u{1f600}", "")],
    ),
    ("a=1,a=%ff", &[("a", "1", "")]),
    // A key isn't decoded, and a key that isn't a token is refused. The rest is read.
    ("%61=1", &[("%61", "1", "")]),
    ("=1,b=2", &[("b", "2", "")]),
    (
        "a b=1,c=2,(d)=3,\u{e9}=4,e=5",
        &[("c", "2", ""), ("e", "5", "")],
    ),
];

#[test]
fn headers_are_read(rt: HostRuntime) -> Result<(), Fail> {
    let alloc = rt.alloc();
    let given = Context::new();
    for (header, members) in READINGS {
        let context = extracted(alloc, &given, *header)?;
        assert!(rt; holds(&context, *members), "reading {header:?}");
    }
    Ok(())
}

#[test]
fn what_was_read_is_written_and_read_again(rt: HostRuntime) -> Result<(), Fail> {
    let alloc = rt.alloc();
    let given = Context::new();
    for (header, members) in READINGS {
        let once = injected(alloc, &extracted(alloc, &given, *header)?)?;
        let again = extracted(alloc, &given, once.as_str())?;
        assert!(rt; holds(&again, *members), "reading {header:?}");
        assert!(rt; injected(alloc, &again)? == once, "writing {header:?}");
    }
    Ok(())
}

/// Members, and the header written for them (W3C baggage, `baggage-string`).
const WRITINGS: &[(&[Member], &str)] = &[
    (&[], ""),
    (&[("a", "1", "")], "a=1"),
    (&[("a", "1", "p=1;q"), ("b", "", "")], "a=1;p=1;q,b="),
    (&[("k", "50%", ""), ("j", "\u{e9}", "")], "k=50%25,j=%C3%A9"),
    (&[("a", " ,;=", "")], "a=%20%2C%3B%3D"),
];

#[test]
fn baggages_come_back(rt: HostRuntime) -> Result<(), Fail> {
    let alloc = rt.alloc();
    for (members, header) in WRITINGS {
        let context = Context::new().with_baggage(alloc, baggage_of(alloc, *members)?)?;
        let text = injected(alloc, &context)?;
        assert!(rt; text.as_str() == *header, "writing {header:?}");
        let back = extracted(alloc, &Context::new(), text.as_str())?;
        assert!(rt; holds(&back, *members), "reading {header:?}");
    }
    Ok(())
}

#[test]
fn a_comma_in_metadata_divides(rt: HostRuntime) -> Result<(), Fail> {
    let alloc = rt.alloc();
    let context = Context::new().with_baggage(alloc, baggage_of(alloc, &[("a", "1", "x,b=2")])?)?;
    let text = injected(alloc, &context)?;
    assert!(rt; text.as_str() == "a=1;x,b=2");
    let back = extracted(alloc, &Context::new(), text.as_str())?;
    assert!(rt; holds(&back, &[("a", "1", "x"), ("b", "2", "")]));
    Ok(())
}

#[test]
fn the_empty_text_is_set_without_a_baggage(rt: HostRuntime) -> Result<(), Fail> {
    let alloc = rt.alloc();
    assert!(rt; injected(alloc, &Context::new())?.is_empty());
    let mut carrier = map_of(alloc, &[("baggage", "old=1"), ("other", "stays")])?;
    let propagator = BaggagePropagator::new(alloc)?;
    propagator
        .inject_context(&Context::new(), &mut carrier)
        .map_err(memory_of)?;
    assert!(rt; carrier.get("baggage").is_some_and(|text| text.is_empty()));
    assert!(rt;
        carrier
            .get("other")
            .is_some_and(|text| text.as_str() == "stays")
    );
    assert!(rt; carrier.len() == 2);
    Ok(())
}

/// A context with an entry and the baggage `x=9`, suppressed.
fn given(alloc: Global) -> Result<Context, AllocError> {
    Context::new()
        .with_value(alloc, Key::from("name"), AnyValue::from("given"))?
        .with_telemetry_suppressed(alloc)?
        .with_baggage(alloc, baggage_of(alloc, &[("x", "9", "m")])?)
}

fn has_other_parts(context: &Context) -> bool {
    let named = match context.get("name") {
        Some(AnyValue::String(text)) => text.as_str() == "given",
        _ => false,
    };
    named && context.is_telemetry_suppressed() && !context.has_active_span()
}

#[test]
fn the_baggage_alone_changes(rt: HostRuntime) -> Result<(), Fail> {
    let alloc = rt.alloc();
    let given = given(alloc)?;
    let read: &[Member] = &[("a", "1", "")];
    for (header, members) in [("a=1", read), ("", &[]), (",;,=", &[])] {
        let context = extracted(alloc, &given, header)?;
        assert!(rt; holds(&context, members), "reading {header:?}");
        assert!(rt; has_other_parts(&context), "reading {header:?}");
    }
    assert!(rt; holds(&given, &[("x", "9", "m")]));
    Ok(())
}

#[test]
fn without_the_header_the_given_context_comes_back(rt: HostRuntime) -> Result<(), Fail> {
    let alloc = rt.alloc();
    let given = given(alloc)?;
    let propagator = BaggagePropagator::new(alloc)?;
    // A map of texts has its keys as they are, and `Baggage` isn't in lower case.
    for key in ["Baggage", "baggages", "tracestate"] {
        let carrier = map_of(alloc, &[(key, "a=1")])?;
        let context = propagator
            .extract_with_context(alloc, &given, &carrier)
            .map_err(memory_of)?;
        assert!(rt; holds(&context, &[("x", "9", "m")]), "with {key:?}");
        assert!(rt; has_other_parts(&context), "with {key:?}");
        let none = propagator
            .extract_with_context(alloc, &Context::new(), &carrier)
            .map_err(memory_of)?;
        assert!(rt; none.baggage().is_none(), "with {key:?}");
    }
    Ok(())
}

#[test]
fn the_field_is_baggage(rt: HostRuntime) -> Result<(), Fail> {
    let propagator = BaggagePropagator::new(rt.alloc())?;
    let mut fields = propagator.fields();
    assert_eq!(rt; fields.next(), Some("baggage"));
    assert_eq!(rt; fields.next(), None);
    Ok(())
}
