//! Ids and flags as texts and bytes.

use otel_ids::{SpanId, TraceFlags, TraceId};
use std::fmt;
use std::num::IntErrorKind;
use std::test::Fail;

/// A number, its text of full width, and its shortest text.
const TRACE_IDS: &[(u128, &str, &str)] = &[
    (0, "00000000000000000000000000000000", "0"),
    (1, "00000000000000000000000000000001", "1"),
    (42, "0000000000000000000000000000002a", "2a"),
    (
        126642714606581564793456114182061442190,
        "5f467fe7bf42676c05e20ba4a90e448e",
        "5f467fe7bf42676c05e20ba4a90e448e",
    ),
];

#[test]
fn trace_ids_are_printed(rt: HostRuntime) -> Result<(), Fail> {
    for (number, text, short) in TRACE_IDS {
        let id = TraceId::from(*number);
        let printed = format!(in rt.alloc(); "{id} {id:?} {id:x} {id:032x}")?;
        let want = format!(in rt.alloc(); "{text} {text} {short} {text}")?;
        assert_eq!(rt; printed.as_str(), want.as_str());
    }
    Ok(())
}

#[test]
fn trace_ids_are_read(rt: HostRuntime) -> Result<(), Fail> {
    for (number, text, short) in TRACE_IDS {
        let id = TraceId::from(*number);
        assert_eq!(rt; TraceId::from_hex(text)?, id);
        assert_eq!(rt; TraceId::from_hex(short)?, id);
        assert_eq!(rt; TraceId::from_bytes(id.to_bytes()), id);
    }
    assert!(rt; TraceId::from_hex("100000000000000000000000000000000").is_err());
    Ok(())
}

#[test]
fn trace_ids_are_big_endian(rt: HostRuntime) {
    let mut bytes = [0u8; 16];
    bytes[0] = 1;
    bytes[15] = 2;
    assert_eq!(rt;
        TraceId::from_bytes(bytes),
        TraceId::from((1u128 << 120) + 2)
    );
    assert_eq!(rt; TraceId::INVALID, TraceId::from(0));
}

/// A number, its text of full width, and its shortest text.
const SPAN_IDS: &[(u64, &str, &str)] = &[
    (0, "0000000000000000", "0"),
    (42, "000000000000002a", "2a"),
    (5508496025762705295, "4c721bf33e3caf8f", "4c721bf33e3caf8f"),
];

#[test]
fn span_ids_are_printed(rt: HostRuntime) -> Result<(), Fail> {
    for (number, text, short) in SPAN_IDS {
        let id = SpanId::from(*number);
        let printed = format!(in rt.alloc(); "{id} {id:?} {id:x} {id:016x}")?;
        let want = format!(in rt.alloc(); "{text} {text} {short} {text}")?;
        assert_eq!(rt; printed.as_str(), want.as_str());
    }
    Ok(())
}

#[test]
fn span_ids_are_read(rt: HostRuntime) -> Result<(), Fail> {
    for (number, text, _) in SPAN_IDS {
        let id = SpanId::from(*number);
        assert_eq!(rt; SpanId::from_hex(text)?, id);
        assert_eq!(rt; SpanId::from_bytes(id.to_bytes()), id);
    }
    Ok(())
}

#[test]
fn span_ids_are_big_endian(rt: HostRuntime) {
    assert_eq!(rt;
        SpanId::from_bytes([1, 0, 0, 0, 0, 0, 0, 2]),
        SpanId::from((1u64 << 56) + 2)
    );
    assert_eq!(rt; SpanId::INVALID, SpanId::from(0));
}

#[test]
fn hexadecimal_texts_of_either_case_are_read(rt: HostRuntime) -> Result<(), Fail> {
    for text in ["+ff", "00000000000000000ff", "fF", "FF"] {
        assert_eq!(rt; SpanId::from_hex(text)?, SpanId::from(0xff), "of {text}");
    }
    Ok(())
}

const NOT_HEXADECIMAL: &[&str] = &["", "+", "-1", " 1", "1 ", "0x1", "g", "++1", "\u{e9}"];

#[test]
fn other_texts_are_no_ids(rt: HostRuntime) {
    for text in NOT_HEXADECIMAL {
        assert!(rt; SpanId::from_hex(text).is_err(), "of {text}");
        assert!(rt; TraceId::from_hex(text).is_err(), "of {text}");
    }
    // 65 bits.
    assert!(rt; SpanId::from_hex("10000000000000000").is_err());
    assert!(rt; TraceId::from_hex("10000000000000000").is_ok());
}

/// A text that is no id of a trace, and why.
const TRACE_ID_FAULTS: &[(&str, IntErrorKind)] = &[
    ("", IntErrorKind::Empty),
    ("+", IntErrorKind::InvalidDigit),
    ("-", IntErrorKind::InvalidDigit),
    ("-1", IntErrorKind::InvalidDigit),
    ("g", IntErrorKind::InvalidDigit),
    ("\u{e9}", IntErrorKind::InvalidDigit),
    (
        "0123456789abcdef+123456789abcdef",
        IntErrorKind::InvalidDigit,
    ),
    (
        "0123456789abcdef0123456789abcdeg",
        IntErrorKind::InvalidDigit,
    ),
    (
        "0123456789abcde\u{e9}123456789abcdef",
        IntErrorKind::InvalidDigit,
    ),
    (
        "100000000000000000000000000000000",
        IntErrorKind::PosOverflow,
    ),
    (
        "+100000000000000000000000000000000",
        IntErrorKind::PosOverflow,
    ),
    (
        "1000000000000000000000000000000000g",
        IntErrorKind::PosOverflow,
    ),
];

/// A text that is no id of a span, and why.
const SPAN_ID_FAULTS: &[(&str, IntErrorKind)] = &[
    ("", IntErrorKind::Empty),
    ("+", IntErrorKind::InvalidDigit),
    ("-1", IntErrorKind::InvalidDigit),
    ("01234567+9abcdef", IntErrorKind::InvalidDigit),
    ("0123456789abcdeg", IntErrorKind::InvalidDigit),
    ("10000000000000000", IntErrorKind::PosOverflow),
    ("f602d2990a2bd5483", IntErrorKind::PosOverflow),
];

#[test]
fn the_kind_of_an_error_is_why_the_text_is_no_id(rt: HostRuntime) {
    for (text, kind) in TRACE_ID_FAULTS {
        let read = TraceId::from_hex(text);
        assert!(rt;
            matches!(&read, Err(error) if error.kind() == kind),
            "of {text}"
        );
    }
    for (text, kind) in SPAN_ID_FAULTS {
        let read = SpanId::from_hex(text);
        assert!(rt;
            matches!(&read, Err(error) if error.kind() == kind),
            "of {text}"
        );
    }
}

#[test]
fn a_plus_may_stand_before_the_digits(rt: HostRuntime) -> Result<(), Fail> {
    let digits = "0123456789abcdef0123456789abcdef";
    let id = TraceId::from_hex(digits)?;
    assert_eq!(rt;
        id,
        TraceId::from(0x0123_4567_89ab_cdef_0123_4567_89ab_cdef)
    );
    let text = format!(in rt.alloc(); "+{digits}")?;
    assert_eq!(rt; TraceId::from_hex(text.as_str())?, id);
    // 32 bytes, of which 31 are digits.
    assert_eq!(rt; TraceId::from_hex("+123456789abcdef0123456789abcdef")?, id);
    assert_eq!(rt;
        SpanId::from_hex("+23456789abcdef0")?,
        SpanId::from(0x0234_5678_9abc_def0)
    );
    Ok(())
}

#[test]
fn flags_are_a_byte(rt: HostRuntime) {
    let all = TraceFlags::new(0xff);
    assert_eq!(rt; all.with_sampled(false).to_u8(), 0xfe);
    assert_eq!(rt; all.with_sampled(true), all);
    assert_eq!(rt; TraceFlags::new(2).with_sampled(true).to_u8(), 3);
    assert!(rt; TraceFlags::SAMPLED.is_sampled() && all.is_sampled());
    assert!(rt; !TraceFlags::NOT_SAMPLED.is_sampled() && !TraceFlags::new(0xfe).is_sampled());
    assert_eq!(rt; TraceFlags::default(), TraceFlags::NOT_SAMPLED);
    assert_eq!(rt; TraceFlags::SAMPLED.to_u8(), 1);
}

#[test]
fn flags_are_joined_bit_by_bit(rt: HostRuntime) {
    let six = TraceFlags::new(6);
    assert_eq!(rt; (TraceFlags::new(0xff) & six).to_u8(), 6);
    assert_eq!(rt; (TraceFlags::SAMPLED | six).to_u8(), 7);
    assert_eq!(rt; (!TraceFlags::SAMPLED).to_u8(), 0xfe);
}

#[test]
fn flags_are_printed_in_hexadecimal(rt: HostRuntime) -> Result<(), Fail> {
    let all = TraceFlags::new(0xff);
    let text = format!(in rt.alloc(); "{:x} {:02x}", all, TraceFlags::SAMPLED)?;
    assert_eq!(rt; text.as_str(), "ff 01");
    Ok(())
}

/// Prints what `LowerHex::fmt` writes, which `{:x}` needn't call.
#[derive(Clone, Copy)]
struct Lower<T>(T);

impl<T: fmt::LowerHex> fmt::Display for Lower<T> {
    fn fmt<W: fmt::Write>(&self, f: &mut fmt::Formatter<W>) -> fmt::Result {
        fmt::LowerHex::fmt(&self.0, f)
    }
}

#[test]
fn lower_hex_writes_the_number(rt: HostRuntime) -> Result<(), Fail> {
    let (trace, span, flags) = (
        Lower(TraceId::from(0xff)),
        Lower(SpanId::from(0xa0)),
        Lower(TraceFlags::new(0xff)),
    );
    let text = format!(in rt.alloc(); "{trace} {span} {flags}")?;
    assert_eq!(rt; text.as_str(), "ff a0 ff");
    let (span, flags) = (Lower(SpanId::INVALID), Lower(TraceFlags::NOT_SAMPLED));
    let text = format!(in rt.alloc(); "{span} {flags}")?;
    assert_eq!(rt; text.as_str(), "0 0");
    for (number, _, short) in TRACE_IDS {
        let id = Lower(TraceId::from(*number));
        let text = format!(in rt.alloc(); "{id}")?;
        assert_eq!(rt; text.as_str(), *short);
    }
    Ok(())
}

#[test]
fn lower_hex_obeys_its_options(rt: HostRuntime) -> Result<(), Fail> {
    let id = Lower(TraceId::from(0xff));
    let text = format!(in rt.alloc(); "{id:6}|{id:<6}|{id:06}|{id:#}|{id:#08}|{id:+}")?;
    assert_eq!(rt; text.as_str(), "    ff|ff    |0000ff|0xff|0x0000ff|+ff");
    let id = Lower(SpanId::from(0xff));
    let text = format!(in rt.alloc(); "{id:6}|{id:<6}|{id:06}|{id:#}|{id:#08}|{id:+}")?;
    assert_eq!(rt; text.as_str(), "    ff|ff    |0000ff|0xff|0x0000ff|+ff");
    let flags = Lower(TraceFlags::new(0x0f));
    let text = format!(in rt.alloc(); "{flags:3}|{flags:<3}|{flags:03}|{flags:#}|{flags:#05}")?;
    assert_eq!(rt; text.as_str(), "  f|f  |00f|0xf|0x00f");
    Ok(())
}

/// A number, and its text of 16 digits or more.
const SIXTEEN: &[(u64, &str)] = &[
    (0, "0000000000000000"),
    (1, "0000000000000001"),
    (0xff, "00000000000000ff"),
    (0x4c721bf33e3caf8f, "4c721bf33e3caf8f"),
    (u64::MAX, "ffffffffffffffff"),
];

#[test]
fn ids_and_flags_are_printed_in_16_digits(rt: HostRuntime) -> Result<(), Fail> {
    let alloc = rt.alloc();
    for (number, text) in SIXTEEN {
        let (trace, span) = (TraceId::from(*number as u128), SpanId::from(*number));
        let printed = format!(in alloc; "{trace:016x} {span:016x}")?;
        let want = format!(in alloc; "{text} {text}")?;
        assert_eq!(rt; printed.as_str(), want.as_str());
        let (trace, span) = (Lower(trace), Lower(span));
        let printed = format!(in alloc; "{trace:016} {span:016}")?;
        assert_eq!(rt; printed.as_str(), want.as_str());
    }
    let wide = TraceId::from(u128::MAX);
    let printed = format!(in alloc; "{wide:016x}")?;
    assert_eq!(rt; printed.as_str(), "ffffffffffffffffffffffffffffffff");
    let (flags, lower) = (TraceFlags::new(0xa1), Lower(TraceFlags::new(0xa1)));
    let printed = format!(in alloc; "{flags:016x} {lower:016}")?;
    assert_eq!(rt; printed.as_str(), "00000000000000a1 00000000000000a1");
    Ok(())
}
