//! Printed baggages.
use crate::baggage::printed;
use std::test::Fail;
use test_support::{Member, baggage_of};

/// The members inserted in turn, and the printed baggage.
const HEADERS: &[(&[Member], &str)] = &[
    (&[], ""),
    (&[("k", "a b", " m=1 ")], "k=a%20b;m=1"),
    (&[("k", "\u{e9}", "")], "k=%C3%A9"),
    (&[("k", "\u{391}", "")], "k=%CE%91"),
    (&[("foo", "1=1", "")], "foo=1%3D1"),
    (&[("foo", "", "red;state=on")], "foo=;red;state=on"),
    (
        &[("foo", "1", "red;state=on"), ("bar", "2", "yellow")],
        "foo=1;red;state=on,bar=2;yellow",
    ),
    (
        &[("k", "This & That = More", "")],
        "k=This%20%26%20That%20%3D%20More",
    ),
    (
        &[("k", "Unsafe: ~!@#$%^&*()_+{}[];:'\\\"<>?,./", "")],
        "k=Unsafe%3A%20~%21%40%23%24%25%5E%26%2A%28%29_%2B%7B%7D%5B%5D%3B%3A%27%5C%22%3C%3E%3F%2C.%2F",
    ),
    (&[("a", "1", "x,b=2")], "a=1;x,b=2"),
    (&[("a", "1", "x"), ("b", "2", "")], "a=1;x,b=2"),
    (
        &[("a", "1", ""), ("b", "2", ""), ("a", "4", "m")],
        "a=4;m,b=2",
    ),
    (&[("a b", "1", "")], ""),
    (
        &[
            ("", "1", ""),
            ("\u{1f6ab}", "1", ""),
            ("(example)", "1", ""),
        ],
        "",
    ),
];

#[test]
fn prints_members(rt: HostRuntime) -> Result<(), Fail> {
    for (givens, header) in HEADERS {
        let baggage = baggage_of(rt.alloc(), givens)?;
        assert_eq!(rt; printed(rt.alloc(), &baggage)?.as_str(), *header);
    }
    Ok(())
}
