//! The characters that a name can't contain.
use crate::pictures::{drawn, span};
use opentelemetry::StringValue;
use std::alloc::Global;
use std::test::Fail;

/// The characters of the general categories Cc, Cf, Zl and Zp, as ranges, from `unicodedata` of
/// Python 3.12.
const STEERING: [(u32, u32); 23] = [
    (0x0, 0x1f),
    (0x7f, 0x9f),
    (0xad, 0xad),
    (0x600, 0x605),
    (0x61c, 0x61c),
    (0x6dd, 0x6dd),
    (0x70f, 0x70f),
    (0x890, 0x891),
    (0x8e2, 0x8e2),
    (0x180e, 0x180e),
    (0x200b, 0x200f),
    (0x2028, 0x202e),
    (0x2060, 0x2064),
    (0x2066, 0x206f),
    (0xfeff, 0xfeff),
    (0xfff9, 0xfffb),
    (0x110bd, 0x110bd),
    (0x110cd, 0x110cd),
    (0x13430, 0x1343f),
    (0x1bca0, 0x1bca3),
    (0x1d173, 0x1d17a),
    (0xe0001, 0xe0001),
    (0xe0020, 0xe007f),
];

/// Returns how many characters of a name of these two are drawn as `?`.
fn replaced(alloc: Global, characters: (u32, u32)) -> Result<usize, Fail> {
    let mut name = String::new(alloc);
    name.push(char::from_u32(characters.0).ok_or("no character")?)?;
    name.push(char::from_u32(characters.1).ok_or("no character")?)?;
    let mut span = span(alloc, 7, (1, 0), "", 5, 5)?;
    span.name = StringValue::from(name);
    let picture = drawn(alloc, &[span])?;
    Ok(picture.iter().filter(|byte| **byte == b'?').count())
}

#[test]
fn format_characters_and_separators_are_not_drawn(rt: HostRuntime) -> Result<(), Fail> {
    let alloc = rt.alloc();
    for (first, last) in STEERING {
        assert_eq!(rt; replaced(alloc, (first, last))?, 2, "{first:x}");
        let before = if first == 0 { 0x20 } else { first - 1 };
        assert_eq!(rt; replaced(alloc, (before, last + 1))?, 0, "{first:x}");
    }
    Ok(())
}
