//! Splitmix64: every case has its own stream, so that it can be run alone.

pub struct Random(u64);

impl Random {
    pub fn of_case(seed: u64, group: &str, index: u64) -> Random {
        let mut state = Random(seed);
        for byte in group.bytes() {
            state.0 = state.next() ^ byte as u64;
        }
        state.0 = state.next() ^ index;
        Random(state.next())
    }

    pub fn next(&mut self) -> u64 {
        self.0 = self.0.wrapping_add(0x9E37_79B9_7F4A_7C15);
        let mut mixed = self.0;
        mixed = (mixed ^ (mixed >> 30)).wrapping_mul(0xBF58_476D_1CE4_E5B9);
        mixed = (mixed ^ (mixed >> 27)).wrapping_mul(0x94D0_49BB_1331_11EB);
        mixed ^ (mixed >> 31)
    }

    pub fn below(&mut self, count: usize) -> usize {
        (self.next() % count as u64) as usize
    }

    /// Both ends included; low where the range is empty.
    pub fn between(&mut self, low: i64, high: i64) -> i64 {
        low + (self.next() % (high - low + 1).max(1) as u64) as i64
    }

    pub fn one_in(&mut self, count: usize) -> bool {
        self.below(count) == 0
    }

    pub fn pick<T: Copy>(&mut self, list: &[T]) -> T {
        list[self.below(list.len())]
    }

    /// 0 to most, every order of magnitude about as often.
    pub fn magnitude(&mut self, most: i64) -> i64 {
        let bits = 64 - most.leading_zeros();
        let ceiling = (1i64 << self.between(0, bits as i64)) - 1;
        self.between(0, ceiling.min(most))
    }

    pub fn sign(&mut self) -> i64 {
        self.pick(&[-1, 1])
    }
}
