//! Repeatable random numbers. RICESHOAL_SEED, a decimal number, sets another seed.

use std::env;

/// SplitMix64: the same seed gives the same numbers on every machine.
pub struct Rng(u64);

impl Rng {
    /// Each test has its own stream of numbers, so that it can be run alone.
    pub fn new(stream: u64) -> Rng {
        let seed = match env::var("RICESHOAL_SEED") {
            Ok(seed) => seed.parse().expect("RICESHOAL_SEED: a decimal number"),
            Err(_) => 1_u64,
        };
        Rng(seed.wrapping_mul(0x2545_f491_4f6c_dd1d) ^ stream)
    }

    pub fn next(&mut self) -> u64 {
        self.0 = self.0.wrapping_add(0x9e37_79b9_7f4a_7c15);
        let z = (self.0 ^ (self.0 >> 30)).wrapping_mul(0xbf58_476d_1ce4_e5b9);
        let z = (z ^ (z >> 27)).wrapping_mul(0x94d0_49bb_1331_11eb);
        z ^ (z >> 31)
    }

    /// A number from 0 to n - 1.
    pub fn below(&mut self, n: usize) -> usize {
        (self.next() % n as u64) as usize
    }

    /// One of the choices.
    pub fn any<T: Copy>(&mut self, choices: &[T]) -> T {
        choices[self.below(choices.len())]
    }

    pub fn bytes(&mut self, len: usize) -> Vec<u8> {
        (0..len).map(|_| self.next() as u8).collect()
    }
}
