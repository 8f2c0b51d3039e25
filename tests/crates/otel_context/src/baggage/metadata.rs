//! The texts stored as metadata, and copies and comparisons of metadata.
use otel_context::baggage::BaggageMetadata;
use std::cmp::Ordering;
use std::test::Fail;

/// The given texts, and the stored ones.
const METADATA: &[(&str, &str)] = &[
    ("", ""),
    ("m", "m"),
    (" \t\r\n m \n\r\t ", "m"),
    ("\u{a0}m\u{a0}n\u{a0}", "m\u{a0}n"),
    ("\u{2003}m\u{2003}n\u{2003}", "m\u{2003}n"),
    ("\u{3000}m\u{3000}n\u{3000}", "m\u{3000}n"),
    ("\u{85}\u{1680}\u{2028}\u{2029}\u{205f}m", "m"),
    // A zero width space and a byte order mark aren't white space in Unicode.
    ("\u{200b}m\u{feff}", "\u{200b}m\u{feff}"),
    (" \u{a0}\u{2003}\u{3000} ", ""),
];

#[test]
fn metadata_is_cut_at_both_ends(rt: HostRuntime) -> Result<(), Fail> {
    for (given, kept) in METADATA {
        let metadata = BaggageMetadata::new(rt.alloc(), given)?;
        assert_eq!(rt; metadata.as_str(), *kept);
        assert_eq!(rt; format!(in rt.alloc(); "{metadata}")?.as_str(), *kept);
    }
    Ok(())
}

#[test]
fn metadata_is_printed_without_width_and_fill(rt: HostRuntime) -> Result<(), Fail> {
    let metadata = BaggageMetadata::new(rt.alloc(), "m1")?;
    assert_eq!(rt; format!(in rt.alloc(); "<{metadata:>4}>")?.as_str(), "<m1>");
    assert_eq!(rt;
        format!(in rt.alloc(); "<{metadata:*<4}>")?.as_str(),
        "<m1>"
    );
    assert_eq!(rt; format!(in rt.alloc(); "<{metadata:.1}>")?.as_str(), "<m1>");
    Ok(())
}

#[test]
fn metadata_is_cloned(rt: HostRuntime) -> Result<(), Fail> {
    let a = BaggageMetadata::new(rt.alloc(), " a ")?;
    assert!(rt; a == a.clone()?);
    Ok(())
}

#[test]
fn metadata_is_ordered_by_its_bytes(rt: HostRuntime) -> Result<(), Fail> {
    let empty = BaggageMetadata::default();
    let a = BaggageMetadata::new(rt.alloc(), "a")?;
    assert_eq!(rt; empty.partial_cmp(&a), Some(Ordering::Less));
    assert_eq!(rt; empty.as_str(), "");
    Ok(())
}
