//! Numbers that look random and are the same in each run.
use std::alloc::{AllocError, Global};

/// A linear congruential generator, with Knuth's multiplier for 64 bits.
#[derive(Drop)]
pub struct Random {
    state: u64,
}

impl Random {
    pub fn new() -> Random {
        Random { state: 1 }
    }

    /// The next number, below 2³¹.
    pub fn next(&mut self) -> usize {
        self.state = self
            .state
            .wrapping_mul(6_364_136_223_846_793_005)
            .wrapping_add(1_442_695_040_888_963_407);
        (self.state >> 33) as usize
    }
}

/// The numbers below `size` in a mixed order: the order of the random numbers drawn for them.
pub fn mixed(alloc: Global, size: usize) -> Result<Vec<usize>, AllocError> {
    let mut random = Random::new();
    let mut drawn = Vec::new(alloc);
    for number in 0..size {
        drawn.push((random.next(), number))?;
    }
    drawn.sort()?;
    let mut order = Vec::new(alloc);
    for (_, number) in &drawn {
        order.push(*number)?;
    }
    Ok(order)
}
