//! Numbers that look random and are the same in each run, and in the port's program.

/// A linear congruential generator, with Knuth's multiplier for 64 bits.
pub struct Random {
    state: u64,
}

impl Random {
    pub fn new() -> Random {
        Random { state: 1 }
    }

    /// The next number, below 2³¹.
    pub fn next(&mut self) -> usize {
        self.state = self
            .state
            .wrapping_mul(6_364_136_223_846_793_005)
            .wrapping_add(1_442_695_040_888_963_407);
        (self.state >> 33) as usize
    }
}

/// The numbers below `size` in a mixed order: the order of the random numbers drawn for them.
pub fn mixed(size: usize) -> Vec<usize> {
    let mut random = Random::new();
    let mut drawn: Vec<(usize, usize)> = (0..size).map(|number| (random.next(), number)).collect();
    drawn.sort();
    drawn.into_iter().map(|(_, number)| number).collect()
}
