//! The proved parser and the oracle on the same lists: number, place, row count
//! and every element of the table are compared.

#![deny(unsafe_code)]

pub mod all;
pub mod bench;
pub mod check;
mod drive;
pub mod edges;
pub mod lines;
mod lists;
// The proved parser's calls, and a look at the stack that they used.
#[allow(unsafe_code)]
pub mod native;
mod nests;
pub mod nights;
pub mod options;
pub mod pair;
pub mod run;
mod tally;

/// What a command comes to: its failure is a message.
pub type Done = Result<(), String>;
