//! Writers: the output of a run doesn't depend on how it is split into writes, and writing stops at
//! a writer that fails.
use super::{BASE, INPUTS, plainly, status_of, unbuffered};
use std::io::{self, ErrorKind, Write};
use std::test::Fail;

/// Accepts this many writes, and then fails.
#[derive(Drop)]
struct FailsAfter {
    left: u32,
}

impl Write for FailsAfter {
    fn write(&mut self, buf: &[u8]) -> io::Result<usize> {
        if self.left == 0 {
            return Err(io::Error::from(ErrorKind::Other));
        }
        self.left -= 1;
        Ok(buf.len())
    }

    fn flush(&mut self) -> io::Result<()> {
        Ok(())
    }
}

#[test]
fn ends_with_status_1_where_a_write_fails(rt: HostRuntime) -> Result<(), Fail> {
    let mut long = String::new(rt.alloc());
    for _ in 0..1000 {
        long.push_str("attach a\n")?;
    }
    for (input, status) in [("attach a\n", 0), ("attach", 2), (long.as_str(), 0)] {
        let mut failed = 0;
        for left in 0..100 {
            let met = status_of(rt.alloc(), input.as_bytes(), FailsAfter { left })?;
            if met != 1 {
                assert_eq!(rt; met, status);
                break;
            }
            failed = left + 1;
        }
        assert!(rt;
            failed > 0 && failed < 100,
            "{failed} writes failed in turn"
        );
    }
    Ok(())
}

/// Accepts at most this many bytes per write, or none at all if that is 0.
#[derive(Drop)]
struct Sips<'a> {
    bytes: &'a mut Vec<u8>,
    most: usize,
}

impl Write for Sips<'_> {
    fn write(&mut self, buf: &[u8]) -> io::Result<usize> {
        let count = buf.len().min(self.most);
        self.bytes.extend_from_slice(&buf[..count])?;
        Ok(count)
    }

    fn flush(&mut self) -> io::Result<()> {
        Ok(())
    }
}

/// Accepts all bytes, and fails to flush them.
#[derive(Drop)]
struct NoFlush<'a> {
    bytes: &'a mut Vec<u8>,
}

impl Write for NoFlush<'_> {
    fn write(&mut self, buf: &[u8]) -> io::Result<usize> {
        self.bytes.extend_from_slice(buf)?;
        Ok(buf.len())
    }

    fn flush(&mut self) -> io::Result<()> {
        Err(io::Error::from(ErrorKind::Other))
    }
}

#[test]
fn a_writer_may_take_one_byte_at_a_time(rt: HostRuntime) -> Result<(), Fail> {
    let alloc = rt.alloc();
    for input in INPUTS {
        let (wanted, status) = plainly(alloc, input.as_bytes())?;
        for most in [1, 2, 7] {
            let mut output = Vec::new(alloc);
            let sips = Sips {
                bytes: &mut output,
                most,
            };
            let met = status_of(alloc, input.as_bytes(), sips)?;
            assert_eq!(rt; met, status, "{most} bytes a write for {input:?}");
            assert!(rt; output == wanted, "{most} bytes a write for {input:?}");
        }
    }
    Ok(())
}

#[test]
fn a_writer_that_takes_nothing_is_given_up(rt: HostRuntime) -> Result<(), Fail> {
    let alloc = rt.alloc();
    for input in INPUTS {
        let mut output = Vec::new(alloc);
        let sips = Sips {
            bytes: &mut output,
            most: 0,
        };
        assert_eq!(rt; status_of(alloc, input.as_bytes(), sips)?, 1, "{input:?}");
        assert!(rt; output.is_empty());
    }
    Ok(())
}

#[test]
fn a_report_that_cannot_be_flushed_ends_with_status_1(rt: HostRuntime) -> Result<(), Fail> {
    let alloc = rt.alloc();
    let (wanted, _) = plainly(alloc, b"attach a v=1\n")?;
    let mut output = Vec::new(alloc);
    let writer = NoFlush { bytes: &mut output };
    assert_eq!(rt; status_of(alloc, b"attach a v=1\n".as_slice(), writer)?, 1);
    assert!(rt; output == wanted);
    Ok(())
}

/// Fails at one write, and accepts later ones, at most this many bytes per write.
#[derive(Drop)]
struct FailsOnce<'a> {
    bytes: &'a mut Vec<u8>,
    before: u32,
    most: usize,
}

impl Write for FailsOnce<'_> {
    fn write(&mut self, buf: &[u8]) -> io::Result<usize> {
        let is_failing = self.before == 0;
        self.before = self.before.wrapping_sub(1);
        if is_failing {
            return Err(io::Error::from(ErrorKind::Other));
        }
        let count = buf.len().min(self.most);
        self.bytes.extend_from_slice(&buf[..count])?;
        Ok(count)
    }

    fn flush(&mut self) -> io::Result<()> {
        Ok(())
    }
}

/// The output before the failed write is a prefix of the whole output, and nothing is written after
/// it.
#[test]
fn nothing_is_written_after_a_failed_write(rt: HostRuntime) -> Result<(), Fail> {
    let alloc = rt.alloc();
    for input in ["attach a v=1\nattach b\n", "attach", ""] {
        let (wanted, status) = plainly(alloc, input.as_bytes())?;
        for before in 0..200 {
            let mut output = Vec::new(alloc);
            let writer = FailsOnce {
                bytes: &mut output,
                before,
                most: 5,
            };
            let met = status_of(alloc, input.as_bytes(), writer)?;
            if met == status {
                assert!(rt; output == wanted && before > 0, "{input:?}");
                break;
            }
            assert_eq!(rt; met, 1, "write {before} fails for {input:?}");
            let is_beginning = wanted.as_slice().starts_with(output.as_slice());
            assert!(rt; is_beginning, "write {before} fails for {input:?}");
        }
    }
    Ok(())
}

/// Inputs, the output for each, and the status.
const REPORTS: &[(&str, &str, u8)] = &[
    (
        "attach a v=1\nattach b\n",
        "attach 0: position 1\nattach 1: position 2\ncurrent: b\nbaggage=\ncontext-name=b\nextracted: none\n",
        0,
    ),
    (
        "attach a v=1\n",
        "attach 0: position 1\ncurrent: a\nbaggage=\ncontext-name=a\ntraceparent=00-00000000000000000000000000000001-0000000000000001-01\ntracestate=v=1\nextracted: 00000000000000000000000000000001 0000000000000001\n",
        0,
    ),
    ("", BASE, 0),
    ("attach a\nattach", "line 2: unknown command\n", 2),
    ("detach x", "line 1: bad number\n", 2),
];

/// Without a buffer, each line takes one write or more. Each of them may fail: the status is then
/// 1, and a proper prefix of the text is written.
#[test]
fn each_write_to_an_output_without_a_buffer_may_fail(rt: HostRuntime) -> Result<(), Fail> {
    let alloc = rt.alloc();
    for (input, report, status) in REPORTS {
        let mut failed = 0;
        for before in 0..200 {
            let mut output = Vec::new(alloc);
            let mut writer = FailsOnce {
                bytes: &mut output,
                before,
                most: usize::MAX,
            };
            let met = unbuffered(alloc, input.as_bytes(), &mut writer)?;
            let written = str::from_utf8(&output).unwrap_or("not UTF-8");
            if met != 1 {
                assert_eq!(rt; met, *status, "{input:?}");
                assert_eq!(rt; written, *report, "{input:?}");
                break;
            }
            failed = before + 1;
            let is_part = report.starts_with(written) && written.len() < report.len();
            assert!(rt; is_part, "write {before} fails for {input:?}: {written:?}");
        }
        let lines = report.lines().count();
        assert!(rt;
            failed as usize >= lines && failed < 200,
            "{failed} writes failed in turn for {input:?}"
        );
    }
    Ok(())
}

/// Everything is written, and the flush fails.
#[test]
fn a_flush_of_an_output_without_a_buffer_may_fail(rt: HostRuntime) -> Result<(), Fail> {
    let alloc = rt.alloc();
    for (input, report, _) in REPORTS {
        let mut output = Vec::new(alloc);
        let mut writer = NoFlush { bytes: &mut output };
        assert_eq!(rt; unbuffered(alloc, input.as_bytes(), &mut writer)?, 1);
        assert_eq!(rt; str::from_utf8(&output), Ok(*report));
    }
    Ok(())
}
