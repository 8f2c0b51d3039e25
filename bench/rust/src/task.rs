//! The program's task, and its repetition.

/// The name of an operation, how many times it is done, and the size of its operand.
pub struct Task<'a> {
    pub name: &'a str,
    pub times: u64,
    pub size: usize,
}

impl<'a> Task<'a> {
    /// The task of a line `NAME TIMES SIZE`.
    pub fn read(line: &'a str) -> Option<Task<'a>> {
        let (name, numbers) = line.split_once(' ')?;
        let (times, size) = numbers.split_once(' ')?;
        Some(Task {
            name,
            times: times.parse().ok()?,
            size: size.parse().ok()?,
        })
    }

    /// Does the operation `times` times. Returns the sum of the results.
    pub fn repeat(&self, mut once: impl FnMut() -> usize) -> Option<u64> {
        let mut sum = 0u64;
        for _ in 0..self.times {
            sum = sum.wrapping_add(once() as u64);
        }
        Some(sum)
    }
}
