//! A small generator of random numbers (SplitMix64): the same numbers from the same seed.

pub struct Random(u64);

impl Random {
    pub fn new(seed: u64) -> Random {
        Random(seed)
    }

    pub fn word(&mut self) -> u64 {
        self.0 = self.0.wrapping_add(0x9e37_79b9_7f4a_7c15);
        let mut word = self.0;
        word = (word ^ (word >> 30)).wrapping_mul(0xbf58_476d_1ce4_e5b9);
        word = (word ^ (word >> 27)).wrapping_mul(0x94d0_49bb_1331_11eb);
        word ^ (word >> 31)
    }

    /// A number from `low` to `high`, both included.
    pub fn between(&mut self, low: u16, high: u16) -> u16 {
        let numbers = u64::from(high - low) + 1;
        low + (self.word() % numbers) as u16
    }

    pub fn byte(&mut self) -> u8 {
        self.word() as u8
    }

    /// True once in `times` on average.
    pub fn one_in(&mut self, times: u16) -> bool {
        self.between(1, times) == 1
    }

    pub fn choose<T: Copy>(&mut self, from: &[T]) -> T {
        from[(self.word() % from.len() as u64) as usize]
    }

    /// Puts the places in a random order.
    pub fn shuffle<T>(&mut self, places: &mut [T]) {
        for last in (1..places.len()).rev() {
            let place = (self.word() % (last as u64 + 1)) as usize;
            places.swap(place, last);
        }
    }

    pub fn bytes(&mut self, len: usize) -> Vec<u8> {
        (0..len).map(|_| self.byte()).collect()
    }

    /// A row of `len` entries, each 0 or 1.
    pub fn row(&mut self, len: usize) -> Vec<u8> {
        (0..len).map(|_| self.byte() & 1).collect()
    }
}
