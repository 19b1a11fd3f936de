//! The plain parser: "The tape" of the scope, operation by operation. It judges,
//! and it is also what speed is measured against, so it is as lean as the scope's
//! words let it be: a kind is decoded by one load (faster than a list of kinds
//! decoded beforehand), a row is one write into the table, a refusal is written
//! down where it happens and leaves as a bare error.
//!
//! The feature `keeps-next` makes it leaner than the scope's words: what is next is
//! looked for once a token and then kept. It is for measuring alone.

use crate::ast::{Span, Token};
use crate::compile::{Error, ErrorKind, Result};
use crate::coverage;
use crate::kinds::{Kind, OF_TOKEN};
use crate::parse::Advance;
use crate::ROW;

/// A mark: how many rows there were, and what was next. All pending trivia is
/// written when a mark is made, so the next token was a significant one.
pub(crate) struct Checkpoint {
    row: usize,
    here: u32,
}

impl Checkpoint {
    /// Refusal 7's place.
    #[inline]
    pub(crate) fn span(&self) -> Span {
        Span { place: self.here }
    }
}

/// Whether what is next is kept; else each look finds it anew, as the scope has it.
pub const KEEPS_NEXT: bool = cfg!(feature = "keeps-next");

/// Tokens, the table that rows go to, and how far both have come.
pub(crate) struct Parser<'a> {
    kinds: &'a [u8],
    lens: &'a [u32],
    table: &'a mut [[u32; ROW]],
    /// The first token not yet written.
    at: usize,
    /// The next significant token with its kind, if it is kept.
    kept: (usize, Kind),
    /// The byte where the token `at` starts.
    byte: u32,
    /// Rows written.
    rows: usize,
    depth: u32,
    limit: u32,
    in_stream: bool,
    /// Number and place of the refusal, once there is one.
    refused: (u32, u32),
}

impl<'a> Parser<'a> {
    /// Lists of one length and a total within 32 bits are the caller's to see to.
    pub(crate) fn new(kinds: &'a [u8], lens: &'a [u32], table: &'a mut [u32], limit: u32) -> Self {
        let (table, _) = table.as_chunks_mut();
        let mut parser = Parser {
            kinds,
            lens,
            table,
            at: 0,
            kept: (0, Kind::Eof),
            byte: 0,
            rows: 0,
            depth: 0,
            limit,
            in_stream: false,
            refused: (0, 0),
        };
        parser.keep_next();
        parser
    }

    pub(crate) fn rows(&self) -> usize {
        self.rows
    }

    /// Number and place of the refusal that a rule has handed on.
    pub(crate) fn refused(&self) -> (u32, u32) {
        self.refused
    }

    // Where things are.

    #[inline]
    fn kind_at(&self, at: usize) -> Kind {
        match self.kinds.get(at) {
            Some(&number) => OF_TOKEN[number as usize],
            None => Kind::Eof,
        }
    }

    /// The first significant token at or after `at`, or the token count, with its
    /// kind.
    #[inline]
    fn significant(&self, mut at: usize) -> (usize, Kind) {
        loop {
            let kind = self.kind_at(at);
            if !kind.is_trivia() {
                return (at, kind);
            }
            at += 1;
        }
    }

    /// The next significant token not yet written, with its kind.
    #[inline]
    fn next(&self) -> (usize, Kind) {
        if KEEPS_NEXT {
            self.kept
        } else {
            self.significant(self.at)
        }
    }

    #[inline]
    fn keep_next(&mut self) {
        if KEEPS_NEXT {
            self.kept = self.significant(self.at);
        }
    }

    /// Whether the first token not yet written is trivia.
    #[inline]
    fn is_trivia_pending(&self) -> bool {
        if KEEPS_NEXT {
            self.at < self.kept.0
        } else {
            self.kind_at(self.at).is_trivia()
        }
    }

    /// The index of the next significant token not yet written.
    #[inline]
    pub(crate) fn here(&self) -> u32 {
        self.next().0 as u32
    }

    #[cold]
    fn refuse(&mut self, number: u32) -> Error {
        self.refuse_at(number, self.here())
    }

    fn refuse_at(&mut self, number: u32, place: u32) -> Error {
        self.refused = (number, place);
        Error
    }

    // What the attribute on the rules adds.

    #[inline(always)]
    pub(crate) fn reached(&self, rule: usize) {
        coverage::count(rule);
    }

    /// Tells the three matchers apart by what they make of their own opener.
    #[inline(always)]
    pub(crate) fn reached_matcher(&self, matcher: fn(Kind) -> i32) {
        if cfg!(feature = "coverage") {
            let of = |kind, rule| {
                if matcher(kind) == 1 {
                    coverage::count(rule);
                }
            };
            of(K!['['], coverage::rule::brackets);
            of(K!['('], coverage::rule::parens);
            of(K!['{'], coverage::rule::braces);
        }
    }

    /// One of the six counted rules begins.
    #[inline]
    pub(crate) fn enter(&mut self) -> Result<()> {
        if self.depth == self.limit {
            return Err(self.refuse(10));
        }
        self.depth += 1;
        Ok(())
    }

    /// One of the six counted rules has ended.
    #[inline]
    pub(crate) fn leave(&mut self) {
        self.depth -= 1;
    }

    /// A statement has ended: it must have taken something.
    #[inline]
    pub(crate) fn moved(&mut self, from: u32) -> Result<()> {
        if self.here() == from {
            return Err(self.refuse(9));
        }
        Ok(())
    }

    /// Inside a token stream a peek at the end is a refusal.
    #[inline]
    pub(crate) fn set_in_stream(&mut self, in_stream: bool) {
        self.in_stream = in_stream;
    }

    // Looking.

    #[inline]
    pub(crate) fn peek(&mut self) -> Result<Kind> {
        let (_, kind) = self.next();
        if kind == Kind::Eof && self.in_stream {
            return Err(self.refuse(8));
        }
        Ok(kind)
    }

    /// The significant token after a given one, or the end.
    #[inline]
    fn after(&self, at: usize) -> (usize, Kind) {
        self.significant((at + 1).min(self.kinds.len()))
    }

    #[inline]
    pub(crate) fn nth(&mut self, n: usize) -> Result<Kind> {
        let (mut at, mut kind) = self.next();
        for _ in 0..n {
            (at, kind) = self.after(at);
        }
        Ok(kind)
    }

    #[inline]
    pub(crate) fn array<const N: usize>(&mut self) -> Result<[Token; N]> {
        let (mut at, mut kind) = self.next();
        Ok(core::array::from_fn(|n| {
            if n > 0 {
                (at, kind) = self.after(at);
            }
            let place = at as u32;
            Token {
                span: Span { place },
                kind,
            }
        }))
    }

    /// The kind of the n-th token after the peeked one, trivia counted. The
    /// grammar's patterns name neither trivia nor the end, so these match none.
    #[inline]
    pub(crate) fn glued(&mut self, n: usize) -> Result<Kind> {
        Ok(self.kind_at(self.next().0 + n))
    }

    #[inline]
    pub(crate) fn is_eof(&mut self) -> Result<bool> {
        Ok(self.next().1 == Kind::Eof)
    }

    // Writing.

    #[inline]
    fn row(&mut self, kind: u8, back: usize, start: u32, length: u32) -> Result<()> {
        let Some(row) = self.table.get_mut(self.rows) else {
            return Err(self.refuse(11));
        };
        *row = [u32::from(kind), back as u32, start, length];
        self.rows += 1;
        Ok(())
    }

    /// Writes the next token, whatever it is.
    #[inline]
    fn leaf(&mut self) -> Result<()> {
        let length = self.lens[self.at];
        self.row(self.kinds[self.at], 0, self.byte, length)?;
        self.at += 1;
        self.byte += length;
        Ok(())
    }

    /// A node over all rows from `first` on. Leaves lie end to end, so the sum
    /// of its leaves' lengths is the distance from its start.
    #[inline]
    fn node(&mut self, first: usize, kind: Kind) -> Result<()> {
        let back = self.rows - first;
        let start = match back {
            0 => self.byte,
            _ => self.table[first][2],
        };
        self.row(kind.node_number(), back, start, self.byte - start)
    }

    #[inline]
    pub(crate) fn flush_ws(&mut self) -> Result<()> {
        while self.is_trivia_pending() {
            self.leaf()?;
        }
        Ok(())
    }

    /// Writes pending trivia, then the token; at the end there is none.
    #[inline]
    pub(crate) fn bump(&mut self) -> Result<()> {
        self.flush_ws()?;
        if self.at < self.kinds.len() {
            self.leaf()?;
            self.keep_next();
        }
        Ok(())
    }

    #[inline]
    pub(crate) fn bump_if(&mut self, kind: Kind) -> Result<bool> {
        self.bump_if_matches(|next| next == kind)
    }

    #[inline]
    pub(crate) fn bump_if_matches(&mut self, is: impl FnOnce(Kind) -> bool) -> Result<bool> {
        let yes = is(self.peek()?);
        if yes {
            self.bump()?;
        }
        Ok(yes)
    }

    #[inline]
    pub(crate) fn bump_while(&mut self, kind: Kind) -> Result<bool> {
        let mut any = false;
        while self.bump_if(kind)? {
            any = true;
        }
        Ok(any)
    }

    #[inline]
    pub(crate) fn checkpoint(&mut self) -> Result<Checkpoint> {
        self.flush_ws()?;
        Ok(Checkpoint {
            row: self.rows,
            here: self.at as u32,
        })
    }

    #[inline]
    pub(crate) fn close_at(&mut self, mark: &Checkpoint, kind: Kind) -> Result<()> {
        self.node(mark.row, kind)
    }

    /// Root's mark is row 0, so there is nothing to keep.
    pub(crate) fn open(&mut self, _root: Kind) -> Result<()> {
        Ok(())
    }

    pub(crate) fn close(&mut self) -> Result<()> {
        self.node(0, Kind::Root)
    }

    pub(crate) fn push(&mut self, kind: Kind) -> Result<()> {
        let mark = self.checkpoint()?;
        self.bump()?;
        self.close_at(&mark, kind)
    }

    pub(crate) fn empty(&mut self, kind: Kind) -> Result<()> {
        let mark = self.checkpoint()?;
        self.close_at(&mark, kind)
    }

    // Refusing.

    /// Refusal 6: no expression begins here.
    pub(crate) fn expected_at(&mut self, _n: usize, _what: Kind) -> Result<Error> {
        Ok(self.refuse(6))
    }

    /// Refusal 7, at the operand that the mark was made before.
    pub(crate) fn error(&mut self, span: Span, kind: ErrorKind) -> Result<Error> {
        let ErrorKind::PrecedenceGroupRequired = kind;
        Ok(self.refuse_at(7, span.place))
    }
}

impl Advance for Parser<'_> {
    type Error = Error;

    fn advance(&mut self, n: usize) -> Result<()> {
        for _ in 0..n {
            self.bump()?;
        }
        Ok(())
    }
}
