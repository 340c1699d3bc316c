//! A small random generator (splitmix64), so that a seed gives the same files everywhere.

/// The state.
pub struct Rng(u64);

impl Rng {
    /// A generator for one file, so that a file does not depend on those before it.
    pub fn of_file(seed: u64, index: u64) -> Rng {
        let mut rng = Rng(seed);
        let start = rng.next() ^ index.wrapping_mul(0xD134_2543_DE82_EF95);
        Rng(start)
    }

    /// The next 64 bits.
    pub fn next(&mut self) -> u64 {
        self.0 = self.0.wrapping_add(0x9E37_79B9_7F4A_7C15);
        let mut mixed = self.0;
        mixed = (mixed ^ (mixed >> 30)).wrapping_mul(0xBF58_476D_1CE4_E5B9);
        mixed = (mixed ^ (mixed >> 27)).wrapping_mul(0x94D0_49BB_1331_11EB);
        mixed ^ (mixed >> 31)
    }

    /// A number below `limit`, which must not be 0.
    pub fn below(&mut self, limit: u32) -> u32 {
        (self.next() % u64::from(limit)) as u32
    }

    /// A number from `low` to `high`, both included.
    pub fn between(&mut self, low: u32, high: u32) -> u32 {
        low + self.below(high - low + 1)
    }

    /// A place in something of `length`, which must not be 0.
    pub fn place(&mut self, length: usize) -> usize {
        (self.next() % length as u64) as usize
    }

    /// True so many times in a hundred.
    pub fn chance(&mut self, hundredths: u32) -> bool {
        self.below(100) < hundredths
    }

    /// One of some things.
    pub fn pick<T: Copy>(&mut self, things: &[T]) -> T {
        things[self.place(things.len())]
    }

    /// The same things in some order.
    pub fn shuffle<T>(&mut self, things: &mut [T]) {
        for last in (1..things.len()).rev() {
            let other = self.place(last + 1);
            things.swap(last, other);
        }
    }

    /// Some bytes below `most` in number, half of them small so that kinds turn up.
    pub fn some_bytes(&mut self, most: usize) -> Vec<u8> {
        let length = self.place(most);
        (0..length).map(|_| self.some_byte()).collect()
    }

    /// Any byte, or a small one.
    pub fn some_byte(&mut self) -> u8 {
        if self.chance(50) {
            self.below(8) as u8
        } else {
            self.below(256) as u8
        }
    }
}
