//! Readers: the output of a run doesn't depend on how its input is split into reads, and reading
//! stops at a reader that fails or never ends.
use super::{BASE, INPUTS, plainly, status_of};
use std::alloc::Global;
use std::io::{self, ErrorKind, Read};
use std::process::Abort;
use std::test::Fail;

/// Returns one `\n` per read, a number of times, and then ends or fails.
#[derive(Drop)]
struct Newlines {
    left: u32,
    fails: bool,
}

impl Read for Newlines {
    fn read(&mut self, buf: &mut [u8]) -> io::Result<usize> {
        if self.left == 0 && self.fails {
            return Err(io::Error::from(ErrorKind::Other));
        }
        if self.left == 0 || buf.is_empty() {
            return Ok(0);
        }
        self.left -= 1;
        buf[0] = b'\n';
        Ok(1)
    }
}

/// The number of newlines, whether the reader fails after them, the output, and the status. The
/// last of the 1,048,576 reads may be the one that reports the end.
const NEWLINES: &[(u32, bool, &str, u8)] = &[
    (0, true, "input: cannot be read\n", 1),
    (1, true, "input: cannot be read\n", 1),
    (1_048_575, false, BASE, 0),
];

#[test]
fn gives_up_a_reader_that_fails(rt: HostRuntime) -> Result<(), Fail> {
    for (left, fails, text, status) in NEWLINES {
        let mut output = Vec::new(rt.alloc());
        let input = Newlines {
            left: *left,
            fails: *fails,
        };
        assert_eq!(rt; status_of(rt.alloc(), input, &mut output)?, *status);
        assert_eq!(rt; str::from_utf8(&output), Ok(*text));
    }
    Ok(())
}

/// It is read 1,048,576 times, and then no more, even if it would end at the next read.
#[test]
fn gives_up_a_reader_that_never_ends(rt: HostRuntime) -> Result<(), Fail> {
    let mut input = Newlines {
        left: u32::MAX,
        fails: false,
    };
    let mut output = Vec::new(rt.alloc());
    assert_eq!(rt; status_of(rt.alloc(), &mut input, &mut output)?, 1);
    assert_eq!(rt; str::from_utf8(&output), Ok("input: cannot be read\n"));
    assert_eq!(rt; u32::MAX - input.left, 1_048_576);
    Ok(())
}

/// Returns a number of bytes `\n`, as many per read as its buffer holds, and records the number of
/// reads and whether each had a buffer of 4,096 bytes.
#[derive(Drop)]
struct MeteredNewlines {
    left: usize,
    reads: u32,
    has_full_room: bool,
}

impl Read for MeteredNewlines {
    fn read(&mut self, buf: &mut [u8]) -> io::Result<usize> {
        self.reads += 1;
        self.has_full_room = self.has_full_room && buf.len() == 4096;
        let count = self.left.min(buf.len());
        buf[..count].fill(b'\n');
        self.left -= count;
        Ok(count)
    }
}

/// The last read of each is the one that reports the end.
#[test]
fn reads_4096_bytes_at_a_time(rt: HostRuntime) -> Result<(), Fail> {
    for (left, reads) in [(0, 1), (1, 2), (4096, 2), (4097, 3), (40_960, 11)] {
        let mut input = MeteredNewlines {
            left,
            reads: 0,
            has_full_room: true,
        };
        let mut output = Vec::new(rt.alloc());
        assert_eq!(rt; status_of(rt.alloc(), &mut input, &mut output)?, 0);
        assert_eq!(rt; str::from_utf8(&output), Ok(BASE));
        assert_eq!(rt; input.reads, reads, "the reads of {left} bytes");
        assert!(rt;
            input.has_full_room,
            "the room of each read of {left} bytes"
        );
    }
    Ok(())
}

/// Returns at most this many bytes per read, and after them the end of the input, or an error.
#[derive(Drop)]
struct Pieces<'a> {
    bytes: &'a [u8],
    most: usize,
    fails: bool,
}

impl Read for Pieces<'_> {
    fn read(&mut self, buf: &mut [u8]) -> io::Result<usize> {
        let count = self.bytes.len().min(buf.len()).min(self.most);
        if count == 0 && self.fails {
            return Err(io::Error::from(ErrorKind::Other));
        }
        let (now, later) = self.bytes.split_at(count);
        buf[..count].copy_from_slice(now);
        self.bytes = later;
        Ok(count)
    }
}

#[test]
fn bytes_may_come_one_at_a_time(rt: HostRuntime) -> Result<(), Fail> {
    let alloc = rt.alloc();
    for input in INPUTS {
        let (wanted, status) = plainly(alloc, input.as_bytes())?;
        for most in [1, 2, 3, 5] {
            let pieces = Pieces {
                bytes: input.as_bytes(),
                most,
                fails: false,
            };
            let mut output = Vec::new(alloc);
            let met = status_of(alloc, pieces, &mut output)?;
            assert_eq!(rt; met, status, "{most} bytes a read of {input:?}");
            assert!(rt; output == wanted, "{most} bytes a read of {input:?}");
        }
    }
    Ok(())
}

/// Asserts that the program reports this one line with this status, however its input is split.
fn assert_line(
    rt: &impl Abort,
    alloc: Global,
    input: &[u8],
    fails: bool,
    line: &str,
    status: u8,
) -> Result<(), Fail> {
    for most in [1, 4096] {
        let pieces = Pieces {
            bytes: input,
            most,
            fails,
        };
        let mut output = Vec::new(alloc);
        assert_eq!(rt; status_of(alloc, pieces, &mut output)?, status, "{input:?}");
        assert_eq!(rt; str::from_utf8(&output), Ok(line), "{input:?}");
    }
    Ok(())
}

#[test]
fn input_that_stops_in_a_character_is_not_utf8(rt: HostRuntime) -> Result<(), Fail> {
    for character in ["\u{e9}", "\u{4f60}", "\u{1f6ab}"] {
        let text = format!(in rt.alloc(); "attach a v={character}")?;
        let bytes = text.as_bytes();
        for cut in 1..character.len() {
            let input = &bytes[..bytes.len() - cut];
            assert_line(&rt, rt.alloc(), input, false, "input: not UTF-8\n", 2)?;
        }
    }
    Ok(())
}

/// A failed read is reported before any fault of the input, even after its last line.
#[test]
fn a_reader_may_fail_after_the_last_line(rt: HostRuntime) -> Result<(), Fail> {
    let line = "input: cannot be read\n";
    for input in INPUTS {
        assert_line(&rt, rt.alloc(), input.as_bytes(), true, line, 1)?;
    }
    assert_line(&rt, rt.alloc(), b"attach \xff\n", true, line, 1)
}
