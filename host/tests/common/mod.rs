//! What the tests share: random numbers, calls into the library between guard bytes, the comparison with the model and with
//! the safe types, the choice of calls, recorded runs, calls for runs that are told outright.
#![allow(dead_code)]

pub mod choose;
pub mod compare;
pub mod crossing;
pub mod frames;
pub mod library;
pub mod met;
#[cfg(target_os = "linux")]
pub mod pages;
pub mod random;
pub mod reached;
pub mod run;
pub mod safe;
pub mod scenes;

use random::Rng;
use std::sync::OnceLock;

/// How often a test does something; fewer times if WIDOSHA_ROUNDS_DIVISOR is set.
pub fn rounds(full: u64) -> u64 {
    (full / divisor().unwrap_or(1)).max(1)
}

/// WIDOSHA_ROUNDS_DIVISOR: set for slow runs, such as under valgrind. Then nothing is said about coverage, and the slices stand
/// without guard bytes, so that a reader of memory accesses sees where they end.
pub fn divisor() -> Option<u64> {
    static READ: OnceLock<Option<u64>> = OnceLock::new();
    *READ.get_or_init(|| {
        let text = std::env::var("WIDOSHA_ROUNDS_DIVISOR").ok()?;
        let number = text.parse().expect("WIDOSHA_ROUNDS_DIVISOR is a number");
        assert!(number > 0, "WIDOSHA_ROUNDS_DIVISOR is not 0");
        Some(number)
    })
}

/// Every `stride`th of many inputs is taken: each one, unless WIDOSHA_ROUNDS_DIVISOR is set.
pub fn stride() -> usize {
    divisor().map_or(1, |divisor| divisor as usize)
}

/// The seed of a test: WIDOSHA_SEED, 1 if it is not set, mixed with the test's own number.
pub fn seed(test: u64) -> u64 {
    let base = std::env::var("WIDOSHA_SEED").map_or(1, |text| text.parse().expect("WIDOSHA_SEED is a number"));
    Rng::new(base).number() ^ Rng::new(test).number()
}
