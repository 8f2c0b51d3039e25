//! The texts of durations.
use crate::pictures::{drawn_in_ascii, span};
use std::test::Fail;

/// A start, an end, and the text of the duration.
const ROWS: &[(u64, u64, &str)] = &[
    (0, 0, "0ns"),
    (0, 999, "999ns"),
    (0, 1000, "1.00us"),
    (0, 999999, "999us"),
    (0, 1500000, "1.50ms"),
    (0, 12345678, "12.3ms"),
    (0, 123456789, "123ms"),
    (0, 61000000000, "61.0s"),
    (0, u64::MAX, "18446744073s"),
    (2000000, 500000, "-1.50ms"),
];

#[test]
fn durations(rt: HostRuntime) -> Result<(), Fail> {
    let alloc = rt.alloc();
    for (start, end, text) in ROWS {
        let batch = [span(alloc, 7, (1, 0), "a", *start, *end)?];
        let picture = drawn_in_ascii(alloc, 40, &batch)?;
        let line = picture
            .split(|byte| *byte == b'\n')
            .nth(1)
            .ok_or("no line")?;
        let words = line
            .split(|byte| *byte == b' ')
            .filter(|word| !word.is_empty());
        assert_eq!(rt; words.take(2).last().ok_or("no word")?, text.as_bytes());
    }
    Ok(())
}
