//! A small generator of reproducible random numbers (SplitMix64), for the tests and benchmarks.

use std::io::{stdout, Write};
use std::thread::panicking;

/// Prints past the capture of a test's output, so that every run shows it.
pub fn print(text: &str) {
    stdout().write_all(text.as_bytes()).unwrap();
}

/// One case of a run with a seed. If the case fails, it says which one it was.
pub struct Case {
    pub seed: u64,
    pub number: u64,
}

impl Case {
    /// The generator of this case alone.
    pub fn rng(&self) -> Rng {
        let step = self.number.wrapping_mul(0xD1B5_4A32_D192_ED03);
        let mut rng = Rng::new(self.seed.wrapping_add(step));
        rng.next();
        rng
    }
}

impl Drop for Case {
    fn drop(&mut self) {
        if panicking() {
            eprintln!("this is case {} of seed {:#x}", self.number, self.seed);
        }
    }
}

pub struct Rng {
    state: u64,
}

impl Rng {
    fn new(seed: u64) -> Rng {
        Rng { state: seed }
    }

    /// The generator of a whole test. Prints its seed.
    pub fn of_test(name: &str, seed: u64) -> Rng {
        print(&format!("{name}: seed {seed:#x}\n"));
        Rng::new(seed)
    }

    pub fn next(&mut self) -> u64 {
        self.state = self.state.wrapping_add(0x9E37_79B9_7F4A_7C15);
        let mut word = self.state;
        word = (word ^ (word >> 30)).wrapping_mul(0xBF58_476D_1CE4_E5B9);
        word = (word ^ (word >> 27)).wrapping_mul(0x94D0_49BB_1331_11EB);
        word ^ (word >> 31)
    }

    /// A number below `bound`, which is not 0.
    pub fn below(&mut self, bound: usize) -> usize {
        (self.next() % bound as u64) as usize
    }

    /// A number from `low` to `high`, both included.
    pub fn between(&mut self, low: usize, high: usize) -> usize {
        low + self.below(high - low + 1)
    }

    /// True once in `times` calls on average.
    pub fn one_in(&mut self, times: usize) -> bool {
        self.below(times) == 0
    }

    pub fn pick<T: Copy>(&mut self, choices: &[T]) -> T {
        choices[self.below(choices.len())]
    }

    /// Puts the elements into a random order.
    pub fn shuffle<T>(&mut self, elements: &mut [T]) {
        for last in (1..elements.len()).rev() {
            elements.swap(last, self.below(last + 1));
        }
    }

    pub fn octets(&mut self, length: usize) -> Vec<u8> {
        (0..length).map(|_| self.next() as u8).collect()
    }
}
