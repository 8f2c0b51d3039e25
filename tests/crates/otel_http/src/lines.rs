//! Lines `name: value` that are added to headers or ignored (RFC 9110, section 5; RFC 9112, section
//! 5.1).
use crate::extractor::headers;
use http_header::HeaderMap;
use otel_http::add_header_line;
use std::test::Fail;

/// Lines that are headers, with the name and the value.
const HEADERS: &[(&str, &str, &str)] = &[
    ("TraceParent: 00", "traceparent", "00"),
    ("baggage:a=1", "baggage", "a=1"),
    ("Host: example:80", "host", "example:80"),
    ("x-id:\t 1 2 \t", "x-id", "1 2"),
    ("empty:", "empty", ""),
    ("blank: \t ", "blank", ""),
];

/// Lines that are none.
const OTHERS: &[&str] = &[
    "",
    ":",
    "no colon",
    ": no name",
    "name : a blank before the colon",
    " name: a blank before the name",
    "a/b: no token",
    "\u{e9}: no ASCII",
    "control: a\u{1}b",
    "end: a\nb: c",
    "end: a\r",
];

#[test]
fn a_header_is_added_to_none(rt: HostRuntime) -> Result<(), Fail> {
    let alloc = rt.alloc();
    let mut headers = HeaderMap::new(alloc);
    let is_header = add_header_line(alloc, &mut headers, "baggage: a=1")?;
    assert!(rt; is_header);
    assert!(rt;
        headers
            .get("baggage")
            .is_some_and(|it| it.as_bytes() == b"a=1".as_slice())
    );
    Ok(())
}

#[test]
fn a_header_is_added_after_after_those_of_its_name(rt: HostRuntime) -> Result<(), Fail> {
    let alloc = rt.alloc();
    for (line, name, value) in HEADERS {
        let mut map = headers(alloc, &[(*name, b"old"), ("other", b"1")])?;
        assert!(rt; add_header_line(alloc, &mut map, line)?, "{line:?}");
        assert_eq!(rt; map.len(), 3);
        let mut values = map.get_all(*name).iter();
        assert!(rt;
            values
                .next()
                .is_some_and(|it| it.as_bytes() == b"old".as_slice()),
            "{line:?}"
        );
        let added = values
            .next()
            .is_some_and(|it| it.as_bytes() == value.as_bytes());
        assert!(rt; added, "{line:?}");
    }
    Ok(())
}

#[test]
fn another_line_adds_nothing(rt: HostRuntime) -> Result<(), Fail> {
    let alloc = rt.alloc();
    let mut map = headers(alloc, &[("a", b"1")])?;
    for line in OTHERS {
        assert!(rt; !add_header_line(alloc, &mut map, line)?, "{line:?}");
        assert_eq!(rt; map.len(), 1);
    }
    Ok(())
}
