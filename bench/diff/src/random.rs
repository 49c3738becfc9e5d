//! Random numbers by splitmix64, so that a seed gives the same scripts everywhere.

/// A stream of random numbers.
pub struct Random {
    state: u64,
}

impl Random {
    /// Makes the stream of the script with this number, from a seed.
    pub fn of_script(seed: u64, number: u64) -> Random {
        Random {
            state: spread(seed).wrapping_add(spread(!number)),
        }
    }

    /// Draws a number of 64 bits.
    pub fn number(&mut self) -> u64 {
        self.state = self.state.wrapping_add(0x9e37_79b9_7f4a_7c15);
        spread(self.state)
    }

    /// Draws a number below `bound`, which is above 0.
    pub fn below(&mut self, bound: u64) -> u64 {
        self.number() % bound
    }

    /// Draws a number from `first` to `last`, both included. The range may not be all numbers of 64 bits.
    pub fn between(&mut self, first: u64, last: u64) -> u64 {
        first + self.below(last - first + 1)
    }

    /// Returns `true` once in `times` draws, on average.
    pub fn one_in(&mut self, times: u64) -> bool {
        self.below(times) == 0
    }

    /// Draws one of the items.
    pub fn pick<'a, T>(&mut self, items: &'a [T]) -> &'a T {
        &items[self.below(items.len() as u64) as usize]
    }

    /// Draws the index of a share, with a probability in proportion to the share. The sum of the shares is above 0.
    pub fn share(&mut self, shares: &[u64]) -> usize {
        let mut left = self.below(shares.iter().sum());
        for (place, share) in shares.iter().enumerate() {
            if left < *share {
                return place;
            }
            left -= share;
        }
        unreachable!("what is left is below the sum")
    }
}

/// Spreads a number over all 64 bits.
pub fn spread(number: u64) -> u64 {
    let number = (number ^ (number >> 30)).wrapping_mul(0xbf58_476d_1ce4_e5b9);
    let number = (number ^ (number >> 27)).wrapping_mul(0x94d0_49bb_1331_11eb);
    number ^ (number >> 31)
}
