//! What tests/bench, tests/worst and tests/stack share: our side of a comparison (crates/c_solids), the Rust's (csx_plain), and the clock.
pub mod clock;
pub mod ours;
pub mod rust;
