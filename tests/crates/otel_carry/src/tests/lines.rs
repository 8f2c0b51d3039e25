//! Lines with a fault, and the greatest number of a detach, one below, at and above. The greatest
//! position is tested by the runs of `tests/long`.
use super::{sees, status_of};
use std::test::Fail;

#[test]
fn reports_the_first_faulty_line(rt: HostRuntime) -> Result<(), Fail> {
    for (input, fault) in [
        ("attach", "line 1: unknown command\n"),
        ("detach", "line 1: unknown command\n"),
        (
            "Attach a\nattach a\ndetach x\n",
            "line 1: unknown command\n",
        ),
        ("attach a\n\nattach \n", "line 3: bad name\n"),
        ("attach  v=1", "line 1: bad name\n"),
        ("attach a\r\n", "line 1: bad name\n"),
        ("attach \u{e9} v", "line 1: bad name\n"),
        ("attach a\u{7f}", "line 1: bad name\n"),
        ("attach a v=1,b", "line 1: bad trace state\n"),
        ("attach a A=1", "line 1: bad trace state\n"),
        ("detach x", "line 1: bad number\n"),
        ("detach ", "line 1: bad number\n"),
        ("detach +1", "line 1: bad number\n"),
        ("detach -1", "line 1: bad number\n"),
        ("detach 1 ", "line 1: bad number\n"),
        ("detach 18446744073709551616", "line 1: bad number\n"),
        ("detach 99999999999999999999", "line 1: bad number\n"),
    ] {
        sees(&rt, rt.alloc(), input.as_bytes(), fault, 2)?;
    }
    // Whether the input is UTF-8 is checked before its lines.
    sees(
        &rt,
        rt.alloc(),
        b"attach\nattach \xff\n",
        "input: not UTF-8\n",
        2,
    )?;
    Ok(())
}

/// The number of a detach, and whether it fits.
const NUMBERS: &[(&str, bool)] = &[
    ("18446744073709551614", true),
    ("18446744073709551615", true),
    ("18446744073709551616", false),
    (
        "00000000000000000000000000000000000018446744073709551615",
        true,
    ),
    (
        "00000000000000000000000000000000000018446744073709551616",
        false,
    ),
];

#[test]
fn a_detach_takes_the_last_number(rt: HostRuntime) -> Result<(), Fail> {
    let alloc = rt.alloc();
    for (number, fits) in NUMBERS {
        let input = format!(in alloc; "attach a\ndetach {number}\n")?;
        let mut output = Vec::new(alloc);
        let status = status_of(alloc, input.as_bytes(), &mut output)?;
        assert_eq!(rt; status, if *fits { 0 } else { 2 }, "{number}");
        let text = str::from_utf8(&output).unwrap_or("");
        let wanted = if *fits {
            "attach 0: position 1\ncurrent: a\n"
        } else {
            "line 2: bad number\n"
        };
        assert!(rt; text.starts_with(wanted), "{number}");
    }
    Ok(())
}
