//! The oracle's half of the fuzz target: what an input's bytes mean, and the oracle's answer to it. `harness.c` is the other half.

#![deny(unsafe_code)]

pub mod input;
// What the harness calls.
#[allow(unsafe_code)]
pub mod linked;
