//! The reasons why a row has no answer.
use std::alloc::{AllocError, AllocFailed};
use std::fmt;

/// The reason why a row has no answer. It prints as the message in the report.
#[derive(Clone, Copy, Debug)]
pub enum Fault {
    /// The text doesn't have the form of a row.
    Malformed(&'static str),
    /// No call has this name.
    UnknownCall,
    /// The call has other arguments.
    Arguments,
    /// The call acts on a value of another type than the value of the rows above it, or there is no
    /// value.
    NoValue,
    /// Two public items that mean the same answer differently.
    Disagrees(&'static str),
    /// Out of memory.
    Memory,
}

impl fmt::Display for Fault {
    fn fmt<W: fmt::Write>(&self, f: &mut fmt::Formatter<W>) -> fmt::Result {
        match self {
            Fault::Malformed(what) => write!(f, "malformed: {what}"),
            Fault::UnknownCall => f.write_str("unknown call"),
            Fault::Arguments => f.write_str("not the arguments of this call"),
            Fault::NoValue => f.write_str("no value for this call was made above"),
            Fault::Disagrees(what) => write!(f, "two ways to ask for {what} disagree"),
            Fault::Memory => f.write_str("no memory"),
        }
    }
}

impl From<AllocError> for Fault {
    fn from(_error: AllocError) -> Fault {
        Fault::Memory
    }
}

impl<T: Drop> From<AllocFailed<T>> for Fault {
    fn from(_failed: AllocFailed<T>) -> Fault {
        Fault::Memory
    }
}

/// Nothing if the two ways agree.
pub fn agrees(agrees: bool, what: &'static str) -> Result<(), Fault> {
    if agrees {
        Ok(())
    } else {
        Err(Fault::Disagrees(what))
    }
}
