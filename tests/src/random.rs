//! A deterministic generator of numbers.

/// A splitmix64 generator.
pub struct Random {
    state: u64,
}

impl Random {
    /// Starts a generator from a seed.
    pub fn new(seed: u64) -> Self {
        Random { state: seed }
    }

    /// Gives the next 64-bit number.
    pub fn number(&mut self) -> u64 {
        self.state = self.state.wrapping_add(0x9E37_79B9_7F4A_7C15);
        let mut z = self.state;
        z = (z ^ (z >> 30)).wrapping_mul(0xBF58_476D_1CE4_E5B9);
        z = (z ^ (z >> 27)).wrapping_mul(0x94D0_49BB_1331_11EB);
        z ^ (z >> 31)
    }

    /// Gives a number below a bound, which is not 0.
    pub fn below(&mut self, bound: usize) -> usize {
        (self.number() % bound as u64) as usize
    }

    /// Gives a byte.
    pub fn byte(&mut self) -> u8 {
        self.number() as u8
    }

    /// Says yes once in so many times.
    pub fn once_in(&mut self, times: usize) -> bool {
        self.below(times) == 0
    }

    /// Picks one of some things.
    pub fn pick<'a, T>(&mut self, things: &'a [T]) -> &'a T {
        &things[self.below(things.len())]
    }

    /// Gives a byte string over an alphabet with a length from least to most.
    pub fn string(&mut self, alphabet: &[u8], least: usize, most: usize) -> Vec<u8> {
        let length = least + self.below(most - least + 1);
        (0..length).map(|_| *self.pick(alphabet)).collect()
    }

    /// Gives a byte string of any bytes with a length from least to most.
    pub fn bytes(&mut self, least: usize, most: usize) -> Vec<u8> {
        let length = least + self.below(most - least + 1);
        (0..length).map(|_| self.byte()).collect()
    }
}
