//! Runs many inputs of the program in one process, and prints the ones with an unexpected output.
//!
//! Standard input has for each of them a line `LENGTH STATUS LENGTH`, the input's bytes, and the
//! expected bytes. A line before the inputs is `programs` or `headers`. Standard output has a line
//! for each unexpected output, up to 20: the number of the input, the status, and the output in
//! hexadecimal digits. The last line is `done COUNT`.
use crate::{headers, serve};
use std::alloc::{AllocError, Global};
use std::io::{self, BufWriter, Read, Write};

/// The maximum number of unexpected outputs that are printed.
const MOST: u32 = 20;

/// An input, and its expected output.
#[derive(Clone, Copy)]
struct Case<'a> {
    input: &'a [u8],
    status: u8,
    wanted: &'a [u8],
}

/// The bytes before the first `end`, and the bytes after it.
fn cut(bytes: &[u8], end: u8) -> Option<(&[u8], &[u8])> {
    let at = bytes.iter().position(|byte| *byte == end)?;
    Some((bytes.get(..at)?, bytes.get(at + 1..)?))
}

fn number(bytes: &[u8]) -> Option<usize> {
    str::from_utf8(bytes).ok()?.parse::<usize>().ok()
}

/// The next case, and the bytes after it.
fn next(bytes: &[u8]) -> Option<(Case<'_>, &[u8])> {
    let (line, rest) = cut(bytes, b'\n')?;
    let (length, line) = cut(line, b' ')?;
    let (status, wanted_length) = cut(line, b' ')?;
    let (length, wanted_length) = (number(length)?, number(wanted_length)?);
    let input = rest.get(..length)?;
    let wanted = rest.get(length..length + wanted_length)?;
    let status = number(status)? as u8;
    let case = Case {
        input,
        status,
        wanted,
    };
    Some((case, rest.get(length + wanted_length..)?))
}

/// The output of the program for the input, and its status.
fn answer(alloc: Global, input: &[u8]) -> Result<(Vec<u8>, u8), AllocError> {
    let mut output = Vec::new(alloc);
    let status = serve(alloc, input, &mut output)?;
    Ok((output, status))
}

pub fn play(rt: HostRuntime) -> io::Result<()> {
    let alloc = rt.alloc();
    let mut bytes = Vec::new(alloc);
    rt.stdin().read_to_end(&mut bytes)?;
    let mut lines = BufWriter::new(alloc, io::writer(&rt))?;
    let (kind, mut rest) = cut(bytes.as_slice(), b'\n').unwrap_or((b"", b""));
    let mut count = 0u32;
    let mut others = 0u32;
    while let Some((case, later)) = next(rest) {
        rest = later;
        let (output, status) = if kind == b"headers".as_slice() {
            headers::answer(alloc, case.input)?
        } else {
            answer(alloc, case.input)?
        };
        if (status != case.status || output.as_slice() != case.wanted) && others < MOST {
            others += 1;
            write!(lines, "{count} {status} ")?;
            for byte in &output {
                write!(lines, "{byte:02x}")?;
            }
            writeln!(lines)?;
        }
        count += 1;
    }
    writeln!(lines, "done {count}")?;
    lines.flush()
}
