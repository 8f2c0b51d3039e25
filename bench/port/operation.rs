//! The program's task, and its repetition.
use std::alloc::AllocError;

/// The name of an operation, how many times it is done, and the size of its operand.
#[derive(Drop)]
pub struct Task<'a> {
    pub name: &'a str,
    pub times: u64,
    pub size: usize,
}

impl<'a> Task<'a> {
    /// The task of a line `NAME TIMES SIZE`.
    pub fn read(line: &'a str) -> Option<Task<'a>> {
        let (name, numbers) = line.split_once(' ')?;
        let (times, size) = numbers.split_once(' ')?;
        Some(Task {
            name,
            times: times.parse::<u64>().ok()?,
            size: size.parse::<usize>().ok()?,
        })
    }
}

/// An operation, with its operand.
///
/// LLVM sees the whole program. So that it can't see through an operation, the measured calls are
/// in functions that it may not inline, and a call that only looks something up adds the value that
/// it found to the sum there.
pub trait Operation: Drop {
    /// Does the operation once.
    fn once(&mut self, sum: &mut u64) -> Result<(), AllocError>;
}

/// Does the operation `times` times. Returns the sum.
#[inline(never)]
pub fn repeat<O: Operation>(mut operation: O, times: u64) -> Result<Option<u64>, AllocError> {
    let mut sum = 0u64;
    for _ in 0..times {
        operation.once(&mut sum)?;
    }
    Ok(Some(sum))
}

/// Adds the result of an operation.
pub fn add(sum: &mut u64, more: usize) {
    *sum = sum.wrapping_add(more as u64);
}
