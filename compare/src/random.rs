//! A small generator of pseudo-random numbers (SplitMix64). Every seed is good, 0 included.

#[derive(Clone, Debug)]
pub struct Random(u64);

impl Random {
    /// A generator of its own for each turn of a run, so that a turn can be repeated alone.
    pub fn new(seed: u64, turn: u64) -> Random {
        let start = Random(seed).next();
        Random(start ^ Random(!turn).next())
    }

    fn next(&mut self) -> u64 {
        self.0 = self.0.wrapping_add(0x9E37_79B9_7F4A_7C15);
        let x = (self.0 ^ (self.0 >> 30)).wrapping_mul(0xBF58_476D_1CE4_E5B9);
        let x = (x ^ (x >> 27)).wrapping_mul(0x94D0_49BB_1331_11EB);
        x ^ (x >> 31)
    }

    /// From 0 up to the end, which isn't included. The slight unevenness does no harm here.
    pub fn below(&mut self, end: usize) -> usize {
        (self.next() % end as u64) as usize
    }

    /// Both ends included.
    pub fn between(&mut self, low: usize, high: usize) -> usize {
        low + self.below(high - low + 1)
    }

    /// True once in so many times.
    pub fn one_in(&mut self, times: usize) -> bool {
        self.below(times) == 0
    }

    pub fn any_u32(&mut self) -> u32 {
        (self.next() >> 32) as u32
    }

    pub fn pick<T: Copy>(&mut self, all: &[T]) -> T {
        all[self.below(all.len())]
    }
}
