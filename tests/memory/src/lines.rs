//! The lines that the scenarios print.
use std::alloc::AllocError;
use std::cell::Cell;
use std::fmt::Display;
use std::io::{self, ErrorKind, Read, Stdin};

/// Room for the longest name of a scenario, and its `\n`.
pub const ROOM: usize = 64;

/// The name of the scenario requested on standard input, which is read into the room, or an empty
/// name if none is requested.
///
/// # Errors
///
/// The error of the read.
pub fn wanted(mut input: Stdin, room: &mut [u8; ROOM]) -> io::Result<&str> {
    let count = input.read(room)?;
    Ok(str::from_utf8(&room[..count]).unwrap_or("").trim_end())
}

/// The output of scenarios, and the name of the requested one. Nothing here allocates.
#[derive(Drop)]
pub struct Lines<'a, R> {
    rt: &'a R,
    wanted: &'a str,
    is_written: Cell<bool>,
}

impl<'a, R: Print> Lines<'a, R> {
    /// The output of the scenario with this name, or of every scenario if the name is empty.
    pub fn new(rt: &'a R, wanted: &'a str) -> Lines<'a, R> {
        Lines {
            rt,
            wanted,
            is_written: Cell::new(true),
        }
    }

    /// Reports whether every line so far was written.
    ///
    /// # Errors
    ///
    /// `WriteZero` if one wasn't.
    pub fn written(&self) -> io::Result<()> {
        if self.is_written.get() {
            Ok(())
        } else {
            Err(io::Error::from(ErrorKind::WriteZero))
        }
    }

    /// Prints the heading of a scenario, if it is requested. Returns whether it is.
    pub fn begin(&self, name: &str) -> bool {
        if !self.wanted.is_empty() && self.wanted != name {
            return false;
        }
        if println!(self.rt; "== {name}").is_err() {
            self.is_written.set(false);
        }
        true
    }

    /// Ends a scenario. If its set-up was out of memory, prints that.
    pub fn end(&self, set_up: Result<(), AllocError>) {
        if set_up.is_err() {
            self.line("set-up", &"no memory");
        }
    }

    /// Prints the answer of a call that allocates.
    pub fn answer<T: Display>(&self, answer: &T) {
        self.line("answer", answer);
    }

    /// Prints the answer of a call that allocates, or its error.
    pub fn answer_of<T: Display + Drop, E: Display + Drop>(&self, answer: Result<T, E>) {
        match answer {
            Ok(answer) => self.line("answer", &answer),
            Err(error) => self.line("answer", &error),
        }
    }

    /// Prints that a call that allocates returned the expected value, or its error.
    pub fn answer_named<T: Drop, E: Display + Drop>(&self, name: &str, answer: Result<T, E>) {
        match answer {
            Ok(_) => self.line("answer", &name),
            Err(error) => self.line("answer", &error),
        }
    }

    /// Clones a value. Prints whether the clone is equal to it, or the error.
    pub fn cloned<T: Clone + PartialEq + Drop>(&self, value: &T) {
        match value.clone() {
            Ok(copy) => self.line("answer", &(copy == *value)),
            Err(error) => self.line("answer", &error),
        }
    }

    /// Prints the borrowed argument of a call, as it is afterwards.
    pub fn receiver<T: Display>(&self, value: &T) {
        self.line("receiver", value);
    }

    /// Prints whether the borrowed argument of a call is as expected after the call's answer:
    /// unchanged, after an error.
    pub fn due(&self, is_due: bool) {
        self.line("receiver", if is_due { &"as due" } else { &"not as due" });
    }

    /// Prints the answer of the named call, which doesn't allocate.
    pub fn free<T: Display>(&self, call: &str, answer: &T) {
        if println!(self.rt; "free {call}: {answer}").is_err() {
            self.is_written.set(false);
        }
    }

    /// Prints the answer of the named call, which doesn't allocate, or the error that it never
    /// returns.
    pub fn free_of<T: Display + Drop, E: Display + Drop>(&self, call: &str, answer: Result<T, E>) {
        match answer {
            Ok(answer) => self.free(call, &answer),
            Err(error) => self.free(call, &error),
        }
    }

    /// Prints that the named call, which doesn't allocate, succeeded, or the error that it never
    /// returns.
    pub fn free_ok<T: Drop, E: Display + Drop>(&self, call: &str, answer: Result<T, E>) {
        match answer {
            Ok(_) => self.free(call, &"ok"),
            Err(error) => self.free(call, &error),
        }
    }

    /// Prints a line of this kind.
    fn line<T: Display>(&self, kind: &str, value: &T) {
        if println!(self.rt; "{kind}: {value}").is_err() {
            self.is_written.set(false);
        }
    }
}
