//! A seeded xorshift generator: equal seeds give equal tables everywhere.

/// The generator's state, never zero.
pub struct Random {
    state: u64,
}

impl Random {
    pub fn new(seed: u64) -> Random {
        // Spreads small seeds over all bits, and keeps zero out.
        let state = seed.wrapping_add(1).wrapping_mul(0x9E37_79B9_7F4A_7C15) | 1;
        let mut random = Random { state };
        for _ in 0..8 {
            random.word();
        }
        random
    }

    /// Any 64-bit word.
    pub fn word(&mut self) -> u64 {
        self.state ^= self.state >> 12;
        self.state ^= self.state << 25;
        self.state ^= self.state >> 27;
        self.state.wrapping_mul(0x2545_F491_4F6C_DD1D)
    }

    /// A number below the bound, which isn't zero.
    pub fn below(&mut self, bound: usize) -> usize {
        ((self.word() >> 33) % bound as u64) as usize
    }

    /// A number from the least to the most, both among them.
    pub fn between(&mut self, least: usize, most: usize) -> usize {
        least + self.below(most - least + 1)
    }

    /// True so many times in a hundred.
    pub fn percent(&mut self, share: usize) -> bool {
        self.below(100) < share
    }

    /// One of the choices, of which there is at least one.
    pub fn pick<T: Copy>(&mut self, choices: &[T]) -> T {
        choices[self.below(choices.len())]
    }
}
