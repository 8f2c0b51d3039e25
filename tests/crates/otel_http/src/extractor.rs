//! The texts that an extractor reads from headers.
use http_header::{HeaderMap, HeaderName, HeaderValue};
use opentelemetry::propagation::Extractor;
use otel_http::HeaderExtractor;
use std::alloc::Global;
use std::test::Fail;

/// Headers with these lines.
pub fn headers(alloc: Global, lines: &[(&str, &[u8])]) -> Result<HeaderMap, Fail> {
    let mut map = HeaderMap::new(alloc);
    for (name, value) in lines {
        let name = HeaderName::from_bytes(alloc, name.as_bytes())?;
        map.append(name, HeaderValue::from_bytes(alloc, *value)?)?;
    }
    Ok(map)
}

fn read(alloc: Global, lines: &[(&str, &[u8])]) -> Result<HeaderExtractor, Fail> {
    Ok(HeaderExtractor::new(alloc, &headers(alloc, lines)?)?)
}

#[test]
fn lists_are_joined_in_order(rt: HostRuntime) -> Result<(), Fail> {
    let alloc = rt.alloc();
    let two = read(alloc, &[("tracestate", b"a=1"), ("TraceState", b"b=2")])?;
    assert!(rt; two.get(alloc, "tracestate")? == Some("a=1,b=2"));
    let three = read(
        alloc,
        &[
            ("tracestate", b"a=1"),
            ("tracestate", b""),
            ("tracestate", b"b=2"),
        ],
    )?;
    assert!(rt; three.get(alloc, "tracestate")? == Some("a=1,,b=2"));
    let baggage = read(alloc, &[("baggage", b"a=1;m"), ("baggage", b"b=2")])?;
    assert!(rt; baggage.get(alloc, "BAGGAGE")? == Some("a=1;m,b=2"));
    match baggage.get_all(alloc, "BAGGAGE")? {
        Some(values) => {
            assert_eq!(rt; values.len(), 1);
            assert_eq!(rt; values[0], "a=1;m,b=2");
        }
        None => assert!(rt; false),
    }
    Ok(())
}

#[test]
fn a_traceparent_that_stands_twice_is_not_there(rt: HostRuntime) -> Result<(), Fail> {
    let alloc = rt.alloc();
    let twice = read(
        alloc,
        &[("traceparent", b"00"), ("x", b"1"), ("traceparent", b"00")],
    )?;
    assert!(rt; twice.get(alloc, "traceparent")? == None);
    let keys = twice.keys(alloc)?;
    assert_eq!(rt; keys.len(), 1);
    assert_eq!(rt; keys[0], "x");
    let once = read(alloc, &[("traceparent", b"00,01")])?;
    assert!(rt; once.get(alloc, "traceparent")? == Some("00,01"));
    Ok(())
}

#[test]
fn what_is_not_readable_is_left_out(rt: HostRuntime) -> Result<(), Fail> {
    let alloc = rt.alloc();
    let one = read(alloc, &[("tracestate", b"a=1"), ("tracestate", b"b=\xff")])?;
    assert!(rt; one.get(alloc, "tracestate")? == Some("a=1"));
    let none = read(alloc, &[("tracestate", b"b=\xff")])?;
    assert!(rt; none.get(alloc, "tracestate")? == None);
    assert_eq!(rt; none.keys(alloc)?.len(), 0);
    Ok(())
}

#[test]
fn the_first_value_of_another_name_counts(rt: HostRuntime) -> Result<(), Fail> {
    let alloc = rt.alloc();
    let ids = read(alloc, &[("x-id", b"1"), ("x-id", b"2")])?;
    assert!(rt; ids.get(alloc, "X-Id")? == Some("1"));
    Ok(())
}
