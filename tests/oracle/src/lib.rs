//! The Rust as judge: case files in, the reference's results out. The format is in tests/README.md; docs/DECISIONS.md has its readings.
pub mod calls;
pub mod case;
pub mod closed;
pub mod fixture;
pub mod generate;
pub mod reference;
pub mod refusals;
pub mod rng;
