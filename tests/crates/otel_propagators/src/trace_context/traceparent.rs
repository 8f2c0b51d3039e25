//! The form of a `traceparent`: `00-`, 32 digits, `-`, 16 digits, `-`, 2 digits.
use crate::trace_context::{TRACEPARENT, assert_read};
use std::alloc::{AllocError, Global};
use std::test::Fail;

/// The characters written in place of a byte.
const WRITTEN: [char; 6] = ['0', 'f', 'g', 'A', '-', ' '];

/// The text of ids 1 and 1 and flags 1 with the byte at `place` replaced.
fn replaced(alloc: Global, place: usize, with: char) -> Result<String, AllocError> {
    let mut text = String::new(alloc);
    for (at, byte) in TRACEPARENT.chars().enumerate() {
        text.push(if at == place { with } else { byte })?;
    }
    Ok(text)
}

/// The number 1 with the digit `before` places before the last one replaced.
fn number(before: usize, digit: u128) -> u128 {
    if before == 0 {
        digit
    } else {
        1 + (digit << (4 * before))
    }
}

/// The ids and flags read from the text with the character `with` at `place`, or `None` if it can't
/// be read.
fn expected(place: usize, with: char) -> Option<(u128, u64, u8)> {
    let fixed = match place {
        0 | 1 => Some('0'),
        2 | 35 | 52 => Some('-'),
        _ => None,
    };
    if let Some(byte) = fixed {
        return if with == byte { Some((1, 1, 1)) } else { None };
    }
    let digit = match with {
        '0' => 0,
        'f' => 15,
        _ => return None,
    };
    match place {
        // An id of 0 isn't valid.
        34 | 51 if digit == 0 => None,
        3..=34 => Some((number(34 - place, digit), 1, 1)),
        36..=51 => Some((1, number(51 - place, digit) as u64, 1)),
        _ => Some((1, 1, number(54 - place, digit) as u8)),
    }
}

#[test]
fn each_byte_has_its_place(rt: HostRuntime) -> Result<(), Fail> {
    let alloc = rt.alloc();
    for place in 0..55usize {
        for with in WRITTEN {
            let text = replaced(alloc, place, with)?;
            assert_read(&rt, alloc, text.as_str(), expected(place, with))?;
        }
    }
    Ok(())
}

/// Texts and whether they are ids 1 and 1 and flags 1: of 54 to 57 bytes, between blanks and with
/// blanks inside, of other versions, with ids that are 0, and with digits too many or too few.
const TEXTS: &[(&str, bool)] = &[
    (TRACEPARENT, true),
    (
        " 00-00000000000000000000000000000001-0000000000000001-01\t",
        true,
    ),
    (
        "\t \t00-00000000000000000000000000000001-0000000000000001-01",
        true,
    ),
    (
        "\n00-00000000000000000000000000000001-0000000000000001-01",
        false,
    ),
    (
        "\u{a0}00-00000000000000000000000000000001-0000000000000001-01",
        false,
    ),
    (
        "00-00000000000000000000000000000001-0000000000000001-1",
        false,
    ),
    (
        "00-0000000000000000000000000000001-0000000000000001-01",
        false,
    ),
    (
        "00-00000000000000000000000000000001-000000000000001-01",
        false,
    ),
    (
        "0-00000000000000000000000000000001-0000000000000001-01",
        false,
    ),
    (
        "00-00000000000000000000000000000001-0000000000000001-",
        false,
    ),
    (
        "00-00000000000000000000000000000001-0000000000000001",
        false,
    ),
    (
        "00-00000000000000000000000000000001-0000000000000001-01-",
        false,
    ),
    (
        "00-00000000000000000000000000000001-0000000000000001-010",
        false,
    ),
    (
        "00-000000000000000000000000000000001-0000000000000001-01",
        false,
    ),
    (
        "00-00000000000000000000000000000001-00000000000000001-01",
        false,
    ),
    (
        "000-00000000000000000000000000000001-0000000000000001-01",
        false,
    ),
    (
        "00-00000000000000000000000000000001-0000000000000001-01-0",
        false,
    ),
    (
        "00-00000000000000000000000000000001-0000000000000001-01 0",
        false,
    ),
    (
        "00 -00000000000000000000000000000001-0000000000000001-01",
        false,
    ),
    (
        "00-00000000000000000000000000000001 -0000000000000001-01",
        false,
    ),
    (
        "01-00000000000000000000000000000001-0000000000000001-01",
        false,
    ),
    (
        "ff-00000000000000000000000000000001-0000000000000001-01",
        false,
    ),
    (
        "00-00000000000000000000000000000000-0000000000000001-01",
        false,
    ),
    (
        "00-00000000000000000000000000000001-0000000000000000-01",
        false,
    ),
    (
        "00-00000000000000000000000000000001-000000000000000A-01",
        false,
    ),
    (
        "00-+0000000000000000000000000000001-0000000000000001-01",
        false,
    ),
    (
        "00_00000000000000000000000000000001_0000000000000001_01",
        false,
    ),
    ("", false),
    (" ", false),
    ("00-", false),
    ("00---", false),
];

#[test]
fn a_text_is_of_the_form_or_no_data(rt: HostRuntime) -> Result<(), Fail> {
    let alloc = rt.alloc();
    for (text, is_read) in TEXTS {
        let expected = if *is_read { Some((1, 1, 1)) } else { None };
        assert_read(&rt, alloc, *text, expected)?;
    }
    Ok(())
}

/// Reading stops at the first wrong byte of a long text.
#[test]
fn a_long_text_is_no_data(rt: HostRuntime) -> Result<(), Fail> {
    let alloc = rt.alloc();
    for byte in ["0", "-", " ", "00-", "\u{e9}"] {
        let text = byte.repeat(alloc, 100_000)?;
        assert_read(&rt, alloc, text.as_str(), None)?;
    }
    Ok(())
}
