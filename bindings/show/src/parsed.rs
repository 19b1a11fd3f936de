//! A text's tokens and the answer to them.

use krosstavel::{room, Entry, Reason, Refusal, Tree};

use crate::lexer::Tokens;
use crate::options::Options;

pub struct Parsed<'t> {
    pub entry: Entry,
    pub text: &'t str,
    pub tokens: Tokens,
    pub outcome: Result<Tree<'t>, Refusal>,
}

impl<'t> Parsed<'t> {
    /// Parses a text into a table of the size that the options name.
    pub fn of(options: &Options, text: &'t str, table: &'t mut Vec<u32>) -> Parsed<'t> {
        let tokens = Tokens::of(text);
        let lacks_room = |table: &mut [u32]| {
            let outcome = options.entry.parse(&tokens.kinds, &tokens.lens, table, options.limit);
            is_without_room(&outcome)
        };
        set_size(table, options.elements, room(tokens.kinds.len()), lacks_room);
        let outcome = options.entry.parse(&tokens.kinds, &tokens.lens, table, options.limit);
        Parsed { entry: options.entry, text, tokens, outcome }
    }
}

pub fn is_without_room(outcome: &Result<Tree, Refusal>) -> bool {
    outcome.as_ref().is_err_and(|refusal| refusal.reason() == Reason::Room)
}

/// Gives a table the size that was asked for, or else room enough: that what `room` says always is, is not proved.
pub fn set_size(table: &mut Vec<u32>, asked: Option<usize>, room: usize, lacks_room: impl Fn(&mut [u32]) -> bool) {
    table.resize(asked.unwrap_or(room), 0);
    while asked.is_none() && lacks_room(table) {
        table.resize(table.len() * 2, 0);
    }
}
