//! The grammar of rune 0.14.2, unchanged, over a plain parser that follows the
//! scope's tape, limits and refusals: the answers that others are held to.

#[macro_use]
pub mod kinds;

mod ast;
pub mod case;
mod compile;
pub mod coverage;
pub mod deep;
pub mod generate;
mod grammar;
pub mod known;
pub mod night;
mod parse;
mod program;
pub mod report;
pub mod rng;
pub mod text;
pub mod tree;
pub mod vectors;

pub use grammar::KEEPS_NEXT;

use grammar::Parser;
use kinds::Kind;

/// Elements in a row: kind, back, start byte, byte length.
pub const ROW: usize = 4;

/// The most tokens.
pub const MOST_TOKENS: usize = 65_535;

/// The most bytes in all.
pub const MOST_BYTES: u64 = 16_777_216;

/// The deepest depth limit.
pub const DEEPEST: u32 = 256;

/// Which rule the tokens are parsed by.
#[derive(Debug, Clone, Copy, PartialEq, Eq, Hash)]
pub enum Entry {
    /// Statements.
    Root,
    /// Expressions with a separator between them.
    Exprs,
    /// One expression, then every other token.
    Format,
}

/// What a parse comes to. On acceptance number and place are 0; on a refusal the
/// row count is.
#[derive(Debug, Clone, Copy, PartialEq, Eq)]
pub struct Answer {
    /// The refusal's number, or 0.
    pub number: u32,
    /// The refusal's place, or 0.
    pub place: u32,
    /// How many rows were written.
    pub rows: u32,
}

impl Answer {
    /// An acceptance with so many rows.
    pub fn accepted(rows: usize) -> Answer {
        Answer {
            number: 0,
            place: 0,
            rows: rows as u32,
        }
    }

    /// A refusal.
    pub fn refused(number: u32, place: u32) -> Answer {
        Answer {
            number,
            place,
            rows: 0,
        }
    }
}

/// Parses tokens into the table: its rows and then zeros on acceptance, zeros
/// alone on a refusal. Only [`Entry::Exprs`] looks at the separator.
pub fn parse(
    entry: Entry,
    kinds: &[u8],
    lens: &[u32],
    table: &mut [u32],
    separator: u32,
    limit: u32,
) -> Answer {
    let answer = parse_rows(entry, kinds, lens, table, separator, limit);
    table[answer.rows as usize * ROW..].fill(0);
    answer
}

/// The same, but what the table holds past the rows of the answer is left to the
/// caller to clear: a refused parse may have written there.
fn parse_rows(
    entry: Entry,
    kinds: &[u8],
    lens: &[u32],
    table: &mut [u32],
    separator: u32,
    limit: u32,
) -> Answer {
    if let Some((number, place)) = refused(entry, kinds, lens, separator, limit) {
        return Answer::refused(number, place);
    }
    let mut p = Parser::new(kinds, lens, table, limit);
    // Past 127 only where the separator is ignored.
    let separator = Kind::of_token(u8::try_from(separator).unwrap_or(0));
    match grammar::run(&mut p, entry, separator) {
        Ok(()) => Answer::accepted(p.rows()),
        Err(compile::Error) => {
            let (number, place) = p.refused();
            Answer::refused(number, place)
        }
    }
}

/// Refusals 1 to 5, each over the whole input before the next.
fn refused(
    entry: Entry,
    kinds: &[u8],
    lens: &[u32],
    separator: u32,
    limit: u32,
) -> Option<(u32, u32)> {
    if !(1..=DEEPEST).contains(&limit) || entry == Entry::Exprs && !is_separator(separator) {
        return Some((1, 0));
    }
    if kinds.len() != lens.len() {
        return Some((2, 0));
    }
    if kinds.len() > MOST_TOKENS {
        return Some((3, 0));
    }
    if let Some(at) = kinds.iter().position(|kind| !(1..=127).contains(kind)) {
        return Some((4, at as u32));
    }
    Some((5, passes_total(lens)? as u32))
}

fn is_separator(number: u32) -> bool {
    (1..=127).contains(&number) && !Kind::of_token(number as u8).is_trivia()
}

/// The first token with which the running total is too large.
fn passes_total(lens: &[u32]) -> Option<usize> {
    let mut total = 0u64;
    lens.iter().position(|len| {
        total += u64::from(*len);
        total > MOST_BYTES
    })
}
