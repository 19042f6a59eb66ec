//! Random numbers, the same for the same seed.
use std::env;
use std::thread::panicking;

/// The generator splitmix64. Where a test fails it tells the seed.
pub struct Random {
    seed: u64,
    state: u64,
}

/// A number of the environment, or what is meant where it says nothing.
fn number(name: &str, otherwise: u64) -> u64 {
    let Ok(text) = env::var(name) else {
        return otherwise;
    };
    let number = text.parse();
    number.unwrap_or_else(|_| panic!("{name} is no decimal number: {text}"))
}

/// So many, or as many times more as the environment says.
pub fn scaled(count: u64) -> u64 {
    count * number("RILLARCH_TEST_SCALE", 1)
}

impl Random {
    /// The generator of a test, by the seed of the environment.
    pub fn new() -> Self {
        let seed = number("RILLARCH_TEST_SEED", 1588);
        Self { seed, state: seed }
    }

    pub fn next(&mut self) -> u64 {
        self.state = self.state.wrapping_add(0x9e37_79b9_7f4a_7c15);
        let mut value = self.state;
        value = (value ^ (value >> 30)).wrapping_mul(0xbf58_476d_1ce4_e5b9);
        value = (value ^ (value >> 27)).wrapping_mul(0x94d0_49bb_1331_11eb);
        value ^ (value >> 31)
    }

    pub fn below(&mut self, limit: usize) -> usize {
        (self.next() % limit as u64) as usize
    }

    /// Whether it is the one time in so many.
    pub fn once_in(&mut self, times: usize) -> bool {
        self.below(times) == 0
    }

    pub fn of<T: Copy>(&mut self, choices: &[T]) -> T {
        choices[self.below(choices.len())]
    }

    pub fn byte(&mut self) -> u8 {
        self.next() as u8
    }

    pub fn bytes(&mut self, count: usize) -> Vec<u8> {
        (0..count).map(|_| self.byte()).collect()
    }

    /// A number of so many bits, often one at a limit.
    pub fn bits(&mut self, bits: u32) -> u64 {
        let largest = u64::MAX >> (64 - bits);
        match self.below(3) {
            0 => self.of(&[0, 1, largest, largest / 2, largest / 2 + 1]),
            _ => self.next() & largest,
        }
    }
}

impl Drop for Random {
    fn drop(&mut self) {
        if panicking() {
            eprintln!("to repeat it: RILLARCH_TEST_SEED={}", self.seed);
        }
    }
}
