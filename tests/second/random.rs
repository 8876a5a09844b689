//! A small seeded generator, so that a run can be repeated from its seed alone.

pub struct Random {
    state: u64,
}

impl Random {
    /// A generator for one part of the run: parts do not disturb each other's numbers.
    pub fn new(seed: u64, part: u64) -> Random {
        let mut random = Random { state: seed };
        random.state = random.any() ^ part;
        random
    }

    /// Any 64-bit number (the mixing step of SplitMix64).
    pub fn any(&mut self) -> u64 {
        self.state = self.state.wrapping_add(0x9e37_79b9_7f4a_7c15);
        let mut mixed = self.state;
        mixed = (mixed ^ (mixed >> 30)).wrapping_mul(0xbf58_476d_1ce4_e5b9);
        mixed = (mixed ^ (mixed >> 27)).wrapping_mul(0x94d0_49bb_1331_11eb);
        mixed ^ (mixed >> 31)
    }

    /// A number from 0 to end - 1.
    pub fn below(&mut self, end: u64) -> u64 {
        self.any() % end
    }

    /// A number from first to last, both included.
    pub fn between(&mut self, first: u64, last: u64) -> u64 {
        first + self.below(last - first + 1)
    }

    /// A number of at most that many bits, small ones as likely as large ones.
    pub fn of_bits(&mut self, most: u64) -> u64 {
        let bits = self.between(0, most);
        self.below(1 << bits)
    }

    pub fn one_in(&mut self, times: u64) -> bool {
        self.below(times) == 0
    }
}
