//! What the proved library and the reference answer, side by side.
//!
//! [`vectors`] runs a file of expected answers against a [`Subject`]; [`generate`] makes sheets,
//! tables and boards, sound and damaged, for the property tests in `tests/`, [`work`] the memory that
//! the makers are lent there, [`making`] compares one call of a maker, [`monitors`] tells what a step
//! breaks, and [`orders`] which of several outputs is preferred.

pub mod generate;
pub mod making;
pub mod monitors;
pub mod orders;
pub mod random;
pub mod subject;
pub mod vectors;
pub mod work;

pub use random::Random;
pub use subject::{Library, Reference, Subject};

/// How many cases a property test tries: CASES, or the number given.
pub fn cases(otherwise: u64) -> u64 {
    match std::env::var("CASES") {
        Ok(number) => number.parse().expect("CASES is a number"),
        Err(_) => otherwise,
    }
}

/// The seed of a property test: SEED, or 1.
pub fn seed() -> u64 {
    match std::env::var("SEED") {
        Ok(number) => number.parse().expect("SEED is a number"),
        Err(_) => 1,
    }
}
