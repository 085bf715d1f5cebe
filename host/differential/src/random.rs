//! A small generator of fixed seeds, so that each case can be made again from two numbers.

/// Splitmix64.
pub struct Random {
    state: u64,
}

impl Random {
    /// The generator of one case: cases of one seed do not depend on each other.
    pub fn new(seed: u64, case: u64) -> Self {
        let mut of_seed = Random { state: seed };
        Random { state: of_seed.word() ^ case.wrapping_mul(0xA24B_AED4_963E_E407) }
    }

    pub fn word(&mut self) -> u64 {
        self.state = self.state.wrapping_add(0x9E37_79B9_7F4A_7C15);
        let mut word = self.state;
        word = (word ^ (word >> 30)).wrapping_mul(0xBF58_476D_1CE4_E5B9);
        word = (word ^ (word >> 27)).wrapping_mul(0x94D0_49BB_1331_11EB);
        word ^ (word >> 31)
    }

    /// 0 to `bound` - 1. The small bias of a remainder does not matter here.
    pub fn below(&mut self, bound: usize) -> usize {
        (self.word() % bound as u64) as usize
    }

    /// `low` to `high`, both possible.
    pub fn between(&mut self, low: u32, high: u32) -> u32 {
        low + self.below((high - low) as usize + 1) as u32
    }

    pub fn one_in(&mut self, chances: usize) -> bool {
        self.below(chances) == 0
    }

    pub fn pick<T: Copy>(&mut self, list: &[T]) -> T {
        list[self.below(list.len())]
    }

    /// One for each direction.
    pub fn triple<T>(&mut self, mut one: impl FnMut(&mut Random) -> T) -> [T; 3] {
        [one(self), one(self), one(self)]
    }

    pub fn bytes(&mut self, length: usize) -> Vec<u8> {
        let mut bytes = vec![0; length];
        for part in bytes.chunks_mut(8) {
            part.copy_from_slice(&self.word().to_le_bytes()[..part.len()]);
        }
        bytes
    }

    pub fn shuffle<T>(&mut self, list: &mut [T]) {
        for last in (1..list.len()).rev() {
            list.swap(last, self.below(last + 1));
        }
    }
}
