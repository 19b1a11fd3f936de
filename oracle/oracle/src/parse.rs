//! What `expr_binary.rs` asks of `crate::parse`.

use crate::ast;

/// Moves on by a number of tokens.
pub trait Advance {
    type Error;

    fn advance(&mut self, n: usize) -> Result<(), Self::Error>;
}

/// The older parser's look ahead. Nothing here makes one.
pub struct Peeker<'a> {
    tokens: &'a [ast::Token],
}

impl Peeker<'_> {
    pub fn array<const N: usize>(&mut self) -> [ast::Token; N] {
        core::array::from_fn(|n| self.tokens[n])
    }
}

/// The older parser's test for a beginning. The lookup has it, nothing asks it.
#[allow(dead_code)]
pub trait Peek {
    fn peek(p: &mut Peeker<'_>) -> bool;
}
