//! Random numbers from a seed, and which seeds to run.

use std::env;
use std::ops::RangeInclusive;

use crate::scope::Scope;

/// The variable that picks a single seed.
pub const SEED_VARIABLE: &str = "GELUMBRIO_SEED";

/// Splitmix64: every seed gives a sequence of its own.
#[derive(Debug, Clone)]
pub struct Random(u64);

impl Random {
    /// The sequence of this seed.
    pub fn new(seed: u64) -> Random {
        Random(seed)
    }

    /// The next 64 bits.
    pub fn bits(&mut self) -> u64 {
        self.0 = self.0.wrapping_add(0x9E37_79B9_7F4A_7C15);
        let mut z = self.0;
        z = (z ^ (z >> 30)).wrapping_mul(0xBF58_476D_1CE4_E5B9);
        z = (z ^ (z >> 27)).wrapping_mul(0x94D0_49BB_1331_11EB);
        z ^ (z >> 31)
    }

    /// Any 32-bit word.
    pub fn word(&mut self) -> u32 {
        self.bits() as u32
    }

    /// A number below `n`, which is not 0.
    pub fn below(&mut self, n: u32) -> u32 {
        (self.bits() % u64::from(n)) as u32
    }

    /// A number from `low` to `high`, both included.
    pub fn between(&mut self, low: u32, high: u32) -> u32 {
        low + self.below(high - low + 1)
    }

    /// One of these, which are not none.
    pub fn one_of<T: Copy>(&mut self, items: &[T]) -> T {
        items[self.below(items.len() as u32) as usize]
    }

    /// True once in `n` times.
    pub fn once_in(&mut self, n: u32) -> bool {
        self.below(n) == 0
    }
}

/// The seeds of a test, from 1 on: these, or the one that the variable picks. They are printed.
///
/// # Panics
///
/// Where the variable holds no number.
pub fn seeds(test: &'static str, scope: Scope, full: u64, brief: u64) -> Seeds {
    if scope == Scope::Brief {
        return Seeds { test, current: None, later: 1..=brief };
    }
    let picked = env::var(SEED_VARIABLE).ok();
    let number =
        |seed: String| seed.parse().unwrap_or_else(|_| panic!("{SEED_VARIABLE}={seed} is no number"));
    let seeds = picked.map(number).map_or(1..=full, |seed: u64| seed..=seed);
    println!("{test}: seeds {} to {}", seeds.start(), seeds.end());
    Seeds { test, current: None, later: seeds }
}

/// Seeds to go through. Where a program panics, which is no difference that could be told, the seed
/// in use is printed.
#[derive(Debug)]
pub struct Seeds {
    test: &'static str,
    current: Option<u64>,
    later: RangeInclusive<u64>,
}

impl Iterator for Seeds {
    type Item = u64;

    fn next(&mut self) -> Option<u64> {
        self.current = self.later.next();
        self.current
    }
}

impl Drop for Seeds {
    fn drop(&mut self) {
        if let (true, Some(seed)) = (std::thread::panicking(), self.current) {
            println!("{}: it failed with seed {seed}", self.test);
        }
    }
}

/// Whether a single seed is picked, so that counts of what all seeds saw mean nothing.
pub fn one_seed_is_picked() -> bool {
    env::var_os(SEED_VARIABLE).is_some()
}
