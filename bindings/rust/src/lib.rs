//! The proved tree builder, from Rust.
//!
//! Tokens go in as a list of kind numbers and a list of their byte lengths; the tree comes out as rows of four numbers in a table that the caller lends.
//! The calls are proved (in Rattle) to give, for every input, the number, the place, the row count and every element of the table that the
//! definition of the grammar gives; this crate hands them slices and reads the rows back. There is no lexer here: the caller's tokens are what is parsed.
//!
//! ```
//! use krosstavel::{parse_exprs, room, Kind};
//!
//! // dirty & mask == 0
//! let kinds = [Kind::Ident, Kind::Amp, Kind::Ident, Kind::EqEq, Kind::Number].map(Kind::number);
//! let lens = [5, 1, 4, 2, 1];
//! let mut table = vec![0; room(kinds.len())];
//!
//! let tree = parse_exprs(&kinds, &lens, &mut table, Kind::Comma, 256)?;
//! let expr = tree.root().children().next().unwrap();
//! let group = expr.children().next().unwrap();
//! assert_eq!(group.kind(), Kind::ExprBinary);
//! assert_eq!(group.text(), 0..13);
//!
//! // One flat group: equal and looser operators are taken from left to right, so this is (dirty & mask) == 0.
//! let below: Vec<Kind> = group.children().map(|node| node.kind()).collect();
//! use Kind::{ExprOperator, Lit, Path};
//! assert_eq!(below, [Path, ExprOperator, Path, ExprOperator, Lit]);
//! assert!(group.children().all(|node| node.parent() == Some(group)));
//! # Ok::<(), krosstavel::Refusal>(())
//! ```
//!
//! A refusal says its number, what that means, and where:
//!
//! ```
//! use krosstavel::{parse_exprs, room, Kind, Reason};
//!
//! // a==b==c
//! let kinds = [Kind::Ident, Kind::EqEq, Kind::Ident, Kind::EqEq, Kind::Ident].map(Kind::number);
//! let lens = [1, 2, 1, 2, 1];
//! let mut table = vec![0; room(kinds.len())];
//!
//! let refusal = parse_exprs(&kinds, &lens, &mut table, Kind::Comma, 256).unwrap_err();
//! assert_eq!((refusal.reason(), refusal.place()), (Reason::Grouping, 2));
//! assert_eq!(refusal.bytes(), Some(3..4));
//! assert!(refusal.to_string().starts_with("refusal 7 at token 2, bytes 3..4: two operators that bind alike"));
//! assert!(table.iter().all(|element| *element == 0));
//! ```
//!
//! Many scripts go through one call, and one table, as a [`Night`].
//!
//! # Costs and limits
//!
//! At most 65,535 tokens of 16,777,216 bytes in all, and a depth limit of 1 to 256. A call takes no memory of its own but stack: at depth 256
//! 340 KiB were seen at the most (a thread that has less must give a smaller limit). [`room`] says how large a table is large enough.

#![deny(unsafe_code)]
#![warn(missing_docs)]

mod calls;
mod kinds;
mod night;
mod refusal;
mod tree;

pub use kinds::Kind;
pub use night::{batch, Job, Night, MOST_JOBS};
pub use refusal::{Reason, Refusal};
pub use tree::{FromLast, Node, Tree, ROW};

/// The most tokens that a call takes.
pub const MOST_TOKENS: usize = 65_535;

/// The most bytes that the tokens may have in all.
pub const MOST_BYTES: u64 = 16_777_216;

/// The largest depth limit.
pub const DEEPEST: u32 = 256;

/// For which processor and how the linked archive was built, in one line.
pub const BUILD: &str = env!("KROSSTAVEL_BUILD");

/// What a call answers, as the archive lays it out. On acceptance number and place are 0; on a refusal the row count is.
#[repr(C)]
#[derive(Debug, Clone, Copy, PartialEq, Eq)]
pub struct Answer {
    /// The refusal's number, or 0.
    pub number: u32,
    /// The refusal's place, or 0.
    pub place: u32,
    /// How many rows were written.
    pub rows: u32,
}

/// Which rule the tokens are parsed by.
#[derive(Debug, Clone, Copy, PartialEq, Eq, Hash)]
pub enum Entry {
    /// Statements.
    Root,
    /// Expressions with a separator between them, the number of a token's kind.
    Exprs(u32),
    /// One expression, then every other token.
    Format,
}

impl Entry {
    /// The bare call, for whoever reads the table without a [`Tree`]: nothing is asked of the lists, the table or the limit.
    ///
    /// ```
    /// use krosstavel::{Answer, Entry};
    /// let mut table = [7; 4];
    /// let answer = Entry::Root.answer(&[], &[], &mut table, 256);
    /// assert_eq!(answer, Answer { number: 0, place: 0, rows: 1 });
    /// assert_eq!(table, [128, 0, 0, 0]);
    /// ```
    pub fn answer(self, kinds: &[u8], lens: &[u32], table: &mut [u32], limit: u32) -> Answer {
        calls::call(self, kinds, lens, table, limit)
    }

    /// Parses tokens, given as kind numbers and byte lengths, into the table; the tree is a view of it. See [`parse_root`] and its like.
    pub fn parse<'t>(self, kinds: &[u8], lens: &[u32], table: &'t mut [u32], limit: u32) -> Result<Tree<'t>, Refusal> {
        let answer = self.answer(kinds, lens, table, limit);
        match answer.number {
            0 => Ok(Tree::new(table, answer.rows)),
            _ => Err(Refusal::new(&answer, lens)),
        }
    }
}

/// Parses a script: statements.
///
/// ```
/// use krosstavel::{parse_root, room, Kind, Reason};
/// // let a;  (no value: the grammar recovers with an empty Error)
/// let kinds = [Kind::Let, Kind::Whitespace, Kind::Ident, Kind::Semicolon].map(Kind::number);
/// let mut table = vec![0; room(kinds.len())];
/// let tree = parse_root(&kinds, &[3, 1, 1, 1], &mut table, 256)?;
/// assert_eq!(format!("{tree:?}"), "Root(Local(let Whitespace Pat(Path(ident)) Expr(Error())) ;)");
///
/// // Pat and Path, inside a statement, need a depth of 3.
/// let refusal = parse_root(&kinds, &[3, 1, 1, 1], &mut table, 2).unwrap_err();
/// assert_eq!((refusal.reason(), refusal.place()), (Reason::Depth, 2));
/// # Ok::<(), krosstavel::Refusal>(())
/// ```
pub fn parse_root<'t>(kinds: &[u8], lens: &[u32], table: &'t mut [u32], limit: u32) -> Result<Tree<'t>, Refusal> {
    Entry::Root.parse(kinds, lens, table, limit)
}

/// Parses guards: expressions with a separator between them.
///
/// ```
/// use krosstavel::{parse_exprs, Kind, Reason};
/// let mut table = [0; 16];
/// let tree = parse_exprs(&[Kind::Number.into()], &[1], &mut table, Kind::Comma, 256)?;
/// assert_eq!(format!("{tree:?}"), "Root(Expr(Lit(number)))");
///
/// // One element less, and the last row does not fit.
/// let refusal = parse_exprs(&[9], &[1], &mut table[1..], Kind::Comma, 256).unwrap_err();
/// assert_eq!((refusal.reason(), refusal.place()), (Reason::Room, 1));
/// # Ok::<(), krosstavel::Refusal>(())
/// ```
pub fn parse_exprs<'t>(
    kinds: &[u8],
    lens: &[u32],
    table: &'t mut [u32],
    separator: impl Into<u32>,
    limit: u32,
) -> Result<Tree<'t>, Refusal> {
    Entry::Exprs(separator.into()).parse(kinds, lens, table, limit)
}

/// Parses the inside of a format: one expression, then every other token as it is.
///
/// ```
/// use krosstavel::{parse_format, room, Kind};
/// // a:1
/// let kinds = [Kind::Ident, Kind::Colon, Kind::Number].map(Kind::number);
/// let mut table = vec![0; room(kinds.len())];
/// let tree = parse_format(&kinds, &[1, 1, 1], &mut table, 256)?;
/// assert_eq!(format!("{tree:?}"), "Root(Expr(Path(ident)) : number)");
/// # Ok::<(), krosstavel::Refusal>(())
/// ```
pub fn parse_format<'t>(kinds: &[u8], lens: &[u32], table: &'t mut [u32], limit: u32) -> Result<Tree<'t>, Refusal> {
    Entry::Format.parse(kinds, lens, table, limit)
}

/// Elements of a table that was large enough for every list of so many tokens that was tried: six rows a token and two more. That it always is, is
/// not proved; a table that is too small is refused with [`Reason::Room`].
pub const fn room(tokens: usize) -> usize {
    (6 * tokens + 2) * ROW
}
