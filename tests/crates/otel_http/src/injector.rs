//! The texts that an injector sets in headers or refuses.
use crate::extractor::headers;
use http_header::HeaderMap;
use opentelemetry::propagation::{Injector, PropagationError};
use otel_http::HeaderInjector;
use std::alloc::{AllocError, Global};
use std::test::Fail;

/// Sets one text. Returns the result and the headers afterwards.
fn set(
    alloc: Global,
    headers: HeaderMap,
    key: &str,
    value: &str,
) -> Result<(Result<(), PropagationError>, HeaderMap), AllocError> {
    let mut injector = HeaderInjector::new(headers);
    let answer = injector.set(key, String::from_str(alloc, value)?);
    Ok((answer, injector.into_headers()))
}

/// Whether the name has this one value.
fn has_one(headers: &HeaderMap, name: &str, value: &str) -> bool {
    let mut values = headers.get_all(name).iter();
    match (values.next(), values.next()) {
        (Some(only), None) => only.as_bytes() == value.as_bytes(),
        _ => false,
    }
}

#[test]
fn a_value_replaces_all_of_its_name(rt: HostRuntime) -> Result<(), Fail> {
    let alloc = rt.alloc();
    let old = headers(
        alloc,
        &[("traceparent", b"1"), ("x-id", b"2"), ("traceparent", b"3")],
    )?;
    let (answer, new) = set(alloc, old, "Traceparent", "v")?;
    assert!(rt; answer == Ok(()));
    assert!(rt; has_one(&new, "traceparent", "v"));
    assert!(rt; has_one(&new, "x-id", "2"));
    assert_eq!(rt; new.len(), 2);
    Ok(())
}

#[test]
fn a_key_that_is_no_name_is_refused(rt: HostRuntime) -> Result<(), Fail> {
    let alloc = rt.alloc();
    for key in ["", "a b", "a:b", "\u{e9}"] {
        let old = headers(alloc, &[("a", b"1")])?;
        let (answer, new) = set(alloc, old, key, "v")?;
        assert!(rt; answer == Err(PropagationError::Refused));
        assert!(rt; has_one(&new, "a", "1"));
        assert_eq!(rt; new.len(), 1);
    }
    Ok(())
}

#[test]
fn a_value_that_could_not_be_read_is_refused(rt: HostRuntime) -> Result<(), Fail> {
    let alloc = rt.alloc();
    for value in ["a\rb", "a\nb", "a\0b", "a\u{7f}b", "\u{e9}"] {
        let old = headers(alloc, &[("a", b"1")])?;
        let (answer, new) = set(alloc, old, "A", value)?;
        assert!(rt; answer == Err(PropagationError::Refused));
        assert!(rt; has_one(&new, "a", "1"));
        assert_eq!(rt; new.len(), 1);
    }
    Ok(())
}

#[test]
fn blank_values_are_accepted(rt: HostRuntime) -> Result<(), Fail> {
    let alloc = rt.alloc();
    for value in ["", "\t", " "] {
        let (answer, new) = set(alloc, HeaderMap::new(alloc), "a", value)?;
        assert!(rt; answer == Ok(()));
        assert!(rt; has_one(&new, "a", value));
    }
    Ok(())
}

#[test]
fn headers_are_written_as_lines(rt: HostRuntime) -> Result<(), Fail> {
    let alloc = rt.alloc();
    let all = [
        ("baggage", b"a=1".as_slice()),
        ("x-id", b"2"),
        ("baggage", b"b=2"),
    ];
    let injector = HeaderInjector::new(headers(alloc, &all)?);
    let text = format!(in alloc; "{injector}")?;
    assert_eq!(rt; text.as_str(), "baggage: a=1\nbaggage: b=2\nx-id: 2\n");
    let unreadable = HeaderInjector::new(headers(alloc, &[("x-id", b"\xff")])?);
    assert!(rt; format!(in alloc; "{unreadable}").is_err());
    Ok(())
}

#[test]
fn many_headers_are_written_as_lines(rt: HostRuntime) -> Result<(), Fail> {
    let alloc = rt.alloc();
    let mut injector = HeaderInjector::new(HeaderMap::new(alloc));
    let mut wanted = String::new(alloc);
    for number in 100..400u32 {
        let key = format!(in alloc; "x-{number}")?;
        Injector::set(&mut injector, key.as_str(), format!(in alloc; "{number}")?).map_err(
            |_| AllocError,
        )?;
        wanted.push_str(format!(in alloc; "x-{number}: {number}\n")?.as_str())?;
    }
    assert_eq!(rt; format!(in alloc; "{injector}")?.as_str(), wanted.as_str());
    Ok(())
}
