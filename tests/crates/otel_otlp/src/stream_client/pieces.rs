//! Readers and writers that take some bytes at a time, are interrupted, or fail.
use std::alloc::Global;
use std::io;
use std::io::{ErrorKind, Read, Write};

/// A reader that gives these bytes, at most `step` in a call, and then ends.
#[derive(Drop)]
pub struct Given {
    bytes: Vec<u8>,
    at: usize,
    step: usize,
    /// Whether each call is interrupted once, before it gives bytes.
    is_interrupted: bool,
    was_interrupted: bool,
    /// The place from which each call fails.
    fails_at: usize,
}

impl Given {
    pub fn new(bytes: Vec<u8>) -> Given {
        Given {
            bytes,
            at: 0,
            step: usize::MAX,
            is_interrupted: false,
            was_interrupted: false,
            fails_at: usize::MAX,
        }
    }

    pub fn step(mut self, step: usize) -> Given {
        self.step = step;
        self
    }

    pub fn interrupted(mut self) -> Given {
        self.is_interrupted = true;
        self
    }

    pub fn failing_at(mut self, place: usize) -> Given {
        self.fails_at = place;
        self
    }

    /// Returns the number of the bytes that it gave.
    pub fn given(&self) -> usize {
        self.at
    }
}

impl Read for Given {
    fn read(&mut self, buf: &mut [u8]) -> io::Result<usize> {
        if self.is_interrupted && !self.was_interrupted {
            self.was_interrupted = true;
            return Err(ErrorKind::Interrupted.into());
        }
        self.was_interrupted = false;
        if self.at >= self.fails_at {
            return Err(ErrorKind::ConnectionReset.into());
        }
        let end = self.bytes.len().min(self.fails_at);
        let count = (end - self.at).min(self.step).min(buf.len());
        buf[..count].copy_from_slice(&self.bytes[self.at..self.at + count]);
        self.at += count;
        Ok(count)
    }
}

/// A writer that takes at most `step` bytes in a call.
#[derive(Drop)]
pub struct Taken {
    pub bytes: Vec<u8>,
    step: usize,
    /// Whether each call is interrupted once, before it takes bytes.
    is_interrupted: bool,
    was_interrupted: bool,
    /// The number of bytes after which each call fails.
    fails_at: usize,
    /// Whether a flush fails.
    fails_to_flush: bool,
}

impl Taken {
    pub fn all(alloc: Global) -> Taken {
        Taken {
            bytes: Vec::new(alloc),
            step: usize::MAX,
            is_interrupted: false,
            was_interrupted: false,
            fails_at: usize::MAX,
            fails_to_flush: false,
        }
    }

    pub fn step(mut self, step: usize) -> Taken {
        self.step = step;
        self
    }

    pub fn interrupted(mut self) -> Taken {
        self.is_interrupted = true;
        self
    }

    pub fn failing_at(mut self, place: usize) -> Taken {
        self.fails_at = place;
        self
    }

    pub fn failing_to_flush(mut self) -> Taken {
        self.fails_to_flush = true;
        self
    }
}

impl Write for Taken {
    fn write(&mut self, bytes: &[u8]) -> io::Result<usize> {
        if self.is_interrupted && !self.was_interrupted {
            self.was_interrupted = true;
            return Err(ErrorKind::Interrupted.into());
        }
        self.was_interrupted = false;
        let left = self.fails_at - self.bytes.len();
        if left == 0 {
            return Err(ErrorKind::BrokenPipe.into());
        }
        let count = bytes.len().min(self.step).min(left);
        self.bytes.extend_from_slice(&bytes[..count])?;
        Ok(count)
    }

    fn flush(&mut self) -> io::Result<()> {
        if self.fails_to_flush {
            return Err(ErrorKind::BrokenPipe.into());
        }
        Ok(())
    }
}
