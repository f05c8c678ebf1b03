//! A small source of made-up numbers (splitmix64): the same seed gives the same numbers anywhere.

/// A seeded source of numbers.
pub struct Prng(u64);

impl Prng {
    /// A source that starts at this seed.
    pub fn new(seed: u64) -> Prng {
        Prng(seed)
    }

    /// The next number, of 64 bits.
    pub fn word(&mut self) -> u64 {
        self.0 = self.0.wrapping_add(0x9E37_79B9_7F4A_7C15);
        let z = (self.0 ^ (self.0 >> 30)).wrapping_mul(0xBF58_476D_1CE4_E5B9);
        let z = (z ^ (z >> 27)).wrapping_mul(0x94D0_49BB_1331_11EB);
        z ^ (z >> 31)
    }

    /// A number below `end`, which is not 0.
    pub fn below(&mut self, end: usize) -> usize {
        (self.word() % end as u64) as usize
    }

    /// A number from `low` to `high`, both included.
    pub fn between(&mut self, low: u32, high: u32) -> u32 {
        low + (self.word() % (u64::from(high - low) + 1)) as u32
    }

    /// A number from `low` to `high` that is as often of one magnitude as of another.
    pub fn of_any_magnitude(&mut self, low: u32, high: u32) -> u32 {
        let top = (high >> self.between(0, (high / low).ilog2())).max(low);
        self.between(low.max(top / 2), top)
    }

    /// Yes, in `percent` of a hundred cases.
    pub fn chance(&mut self, percent: u32) -> bool {
        self.between(1, 100) <= percent
    }

    /// One of these, which are not none.
    pub fn pick<T: Copy>(&mut self, from: &[T]) -> T {
        from[self.below(from.len())]
    }

    /// Puts these in a made-up order.
    pub fn shuffle<T>(&mut self, list: &mut [T]) {
        for end in (1..list.len()).rev() {
            list.swap(end, self.below(end + 1));
        }
    }
}
