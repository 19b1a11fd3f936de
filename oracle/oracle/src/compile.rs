//! What the grammar asks of `crate::compile`.

/// A refusal on its way out. Its number and place stay in the parser.
#[derive(Debug, Clone, Copy, PartialEq, Eq)]
pub struct Error;

/// The one error that the grammar itself names.
pub enum ErrorKind {
    PrecedenceGroupRequired,
}

pub type Result<T> = core::result::Result<T, Error>;
