//! A small generator of random numbers (SplitMix64).

/// The numbers of one case.
pub struct Random {
    state: u64,
}

impl Random {
    /// The index is stirred before it meets the seed, so that neighbouring cases, and the
    /// cases of neighbouring seeds, have nothing in common.
    pub fn new(seed: u64, index: u64) -> Self {
        let stirred = Random { state: index }.next();
        Random {
            state: seed ^ stirred,
        }
    }

    fn next(&mut self) -> u64 {
        self.state = self.state.wrapping_add(0x9e37_79b9_7f4a_7c15);
        let mut mixed = self.state;
        mixed = (mixed ^ (mixed >> 30)).wrapping_mul(0xbf58_476d_1ce4_e5b9);
        mixed = (mixed ^ (mixed >> 27)).wrapping_mul(0x94d0_49bb_1331_11eb);
        mixed ^ (mixed >> 31)
    }

    /// A number from 0 to `limit` - 1.
    pub fn below(&mut self, limit: usize) -> usize {
        (self.next() % limit as u64) as usize
    }

    /// A number from `low` to `high`, both included.
    pub fn between(&mut self, low: usize, high: usize) -> usize {
        low + self.below(high - low + 1)
    }

    /// True once in `times`, on the long run.
    pub fn one_in(&mut self, times: usize) -> bool {
        self.below(times) == 0
    }

    /// One of `items`.
    pub fn pick<T: Copy>(&mut self, items: &[T]) -> T {
        items[self.below(items.len())]
    }

    /// Any 32 bits.
    pub fn bits(&mut self) -> u32 {
        self.next() as u32
    }
}
