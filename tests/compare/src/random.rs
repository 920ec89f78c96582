//! A small deterministic generator of random numbers (splitmix64).

/// A stream of random numbers.
pub struct Random {
    state: u64,
}

impl Random {
    /// The stream of one case: another seed or another index gives another stream.
    pub fn for_case(seed: u64, index: u64) -> Random {
        let mut of_seed = Random { state: seed };
        let mut of_case = Random {
            state: of_seed.draw().wrapping_add(index),
        };
        Random {
            state: of_case.draw(),
        }
    }

    /// The next 64 bits.
    pub fn draw(&mut self) -> u64 {
        self.state = self.state.wrapping_add(0x9E37_79B9_7F4A_7C15);
        let mut bits = self.state;
        bits = (bits ^ (bits >> 30)).wrapping_mul(0xBF58_476D_1CE4_E5B9);
        bits = (bits ^ (bits >> 27)).wrapping_mul(0x94D0_49BB_1331_11EB);
        bits ^ (bits >> 31)
    }

    /// A number below the bound, which is not zero.
    pub fn below(&mut self, bound: u64) -> u64 {
        self.draw() % bound
    }

    /// A number from low to high, both included.
    pub fn between(&mut self, low: i64, high: i64) -> i64 {
        let choices = high.wrapping_sub(low) as u64;
        match choices.checked_add(1) {
            Some(choices) => low.wrapping_add(self.below(choices) as i64),
            None => self.draw() as i64,
        }
    }

    /// A number up to the limit on either side of zero.
    pub fn around_zero(&mut self, limit: i64) -> i64 {
        self.between(-limit, limit)
    }

    /// True in so many cases of a hundred.
    pub fn chance(&mut self, percent: u64) -> bool {
        self.below(100) < percent
    }

    /// −1 or 1.
    pub fn sign(&mut self) -> i64 {
        self.pick(&[-1, 1])
    }

    /// One of the choices.
    pub fn pick<T: Copy>(&mut self, choices: &[T]) -> T {
        choices[self.below(choices.len() as u64) as usize]
    }
}
