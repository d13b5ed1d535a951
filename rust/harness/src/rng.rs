//! A small deterministic generator of numbers (splitmix64).
use std::cell::Cell;

pub struct Rng(Cell<u64>);

impl Rng {
    pub fn new(seed: u64) -> Self {
        Rng(Cell::new(seed))
    }

    pub fn next(&self) -> u64 {
        self.0.set(self.0.get().wrapping_add(0x9E37_79B9_7F4A_7C15));
        let mut z = self.0.get();
        z = (z ^ z >> 30).wrapping_mul(0xBF58_476D_1CE4_E5B9);
        z = (z ^ z >> 27).wrapping_mul(0x94D0_49BB_1331_11EB);
        z ^ z >> 31
    }

    pub fn word(&self) -> u32 {
        (self.next() >> 32) as u32
    }

    /// A number below n, which is not 0.
    pub fn below(&self, n: u32) -> u32 {
        ((u64::from(self.word()) * u64::from(n)) >> 32) as u32
    }

    /// A number from low to high, both included.
    pub fn range(&self, low: u32, high: u32) -> u32 {
        low + self.below(high - low + 1)
    }

    pub fn one_in(&self, n: u32) -> bool {
        self.below(n) == 0
    }

    pub fn pick<T: Copy>(&self, list: &[T]) -> T {
        list[self.below(list.len() as u32) as usize]
    }

    /// An index, each as likely as its weight says.
    pub fn weighted(&self, weights: &[u32]) -> usize {
        let mut left = self.below(weights.iter().sum());
        let mut index = 0;
        while left >= weights[index] {
            left -= weights[index];
            index += 1;
        }
        index
    }
}

/// Fills with noise, or with zeros if the seed is 0.
pub fn fill(seed: u64, bytes: &mut [u8]) {
    let rng = Rng::new(seed);
    for chunk in bytes.chunks_mut(8) {
        let noise = if seed == 0 { 0 } else { rng.next() };
        chunk.copy_from_slice(&noise.to_le_bytes()[..chunk.len()]);
    }
}
