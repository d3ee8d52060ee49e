//! Random numbers, the same ones for the same seed.

/// A splitmix generator.
pub struct Random(u64);

impl Random {
    /// The generator of one thing out of many that a seed gives.
    pub fn of(seed: u64, index: u64) -> Self {
        let mut mixed = Random(seed);
        Random(mixed.next() ^ index.wrapping_mul(0xD6E8_FEB8_6659_FD93))
    }

    fn next(&mut self) -> u64 {
        self.0 = self.0.wrapping_add(0x9E37_79B9_7F4A_7C15);
        let mut z = self.0;
        z = (z ^ (z >> 30)).wrapping_mul(0xBF58_476D_1CE4_E5B9);
        z = (z ^ (z >> 27)).wrapping_mul(0x94D0_49BB_1331_11EB);
        z ^ (z >> 31)
    }

    /// A number below the bound.
    pub fn below(&mut self, bound: u16) -> u16 {
        (self.next() % u64::from(bound)) as u16
    }

    /// A number from the first to the last, both included.
    pub fn within(&mut self, first: u16, last: u16) -> u16 {
        let span = u64::from(last - first) + 1;
        first + (self.next() % span) as u16
    }

    pub fn word(&mut self) -> u16 {
        self.next() as u16
    }

    /// True so many times in a hundred.
    pub fn percent(&mut self, chance: u16) -> bool {
        self.below(100) < chance
    }

    pub fn pick<T: Copy>(&mut self, from: &[T]) -> T {
        from[(self.next() % from.len() as u64) as usize]
    }

    /// Puts the things into some order.
    pub fn shuffle<T>(&mut self, things: &mut [T]) {
        for last in (1..things.len()).rev() {
            let other = self.next() % (last as u64 + 1);
            things.swap(last, other as usize);
        }
    }
}
