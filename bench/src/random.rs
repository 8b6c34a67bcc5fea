//! Random numbers.

/// Xorshift numbers: the same ones from the same seed.
pub struct Random(u64);

/// The first numbers of seeds that differ in few bits are alike, so they go unused.
const UNUSED: usize = 20;

impl Random {
    pub fn new(seed: u64) -> Random {
        let mut random = Random((seed ^ 88172645463325252).max(1));
        for _ in 0..UNUSED {
            random.below(1);
        }
        random
    }

    pub fn below(&mut self, n: usize) -> usize {
        self.0 ^= self.0 << 13;
        self.0 ^= self.0 >> 7;
        self.0 ^= self.0 << 17;
        (self.0 >> 11) as usize % n
    }

    pub fn from(&mut self, low: usize, high: usize) -> usize {
        low + self.below(high - low + 1)
    }

    pub fn one_in(&mut self, n: usize) -> bool {
        self.below(n) == 0
    }

    pub fn pick<T: Copy>(&mut self, of: &[T]) -> T {
        of[self.below(of.len())]
    }

    pub fn shuffle<T>(&mut self, items: &mut [T]) {
        for i in (1..items.len()).rev() {
            items.swap(i, self.below(i + 1));
        }
    }
}
