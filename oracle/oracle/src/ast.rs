//! What the two Rust files ask of `crate::ast`, and nothing more.

pub use crate::kinds::{Delimiter, Kind};

pub use expr_binary::BinOp;
#[cfg(test)]
pub use expr_binary::ExprBinary;

/// Where something stands. Only refusal 7 asks, and for a token's index.
#[derive(Debug, Clone, Copy, PartialEq, Eq, Hash)]
pub struct Span {
    pub place: u32,
}

/// A token as the operator lookup sees it.
#[derive(Debug, Clone, Copy)]
pub struct Token {
    pub span: Span,
    pub kind: Kind,
}

/// Stands for a part of the syntax tree that the lookup names and never makes.
#[derive(Debug, PartialEq, Eq)]
pub struct Attribute;

/// Stands for a part of the syntax tree that the lookup names and never makes.
#[derive(Debug, PartialEq, Eq)]
pub struct Expr;

macro_rules! tokens {
    ($($name:ident)*) => {
        $(#[derive(Debug, Clone, Copy, PartialEq, Eq, Hash)]
        pub struct $name {
            pub span: Span,
        })*
    };
}

tokens! {
    Plus Dash Div Star Perc EqEq BangEq Gt
    Lt GtEq LtEq As Is AmpAmp PipePipe LtLt
    GtGt Amp Caret Pipe PlusEq DashEq StarEq SlashEq
    PercEq AmpEq CaretEq PipeEq LtLtEq GtGtEq DotDot DotDotEq
    Not
}

/// `is not`, the one operator of two tokens.
#[derive(Debug, Clone, Copy, PartialEq, Eq, Hash)]
pub struct IsNot {
    pub is: Is,
    pub not: Not,
}

/// What `expr_binary.rs` takes from the prelude of its crate.
pub mod prelude {
    pub use tracing::{Spanned, ToTokens, TryClone};

    pub(crate) use crate::ast;
    pub(crate) use crate::parse::{Peek, Peeker};

    #[cfg(test)]
    pub(crate) use super::rt;

    pub type Result<T, E = crate::compile::Error> = core::result::Result<T, E>;
}

/// What the unit test in `expr_binary.rs` asks for: the text parses as the node
/// that is called like the type.
#[cfg(test)]
pub(crate) fn rt<T>(text: &str) {
    let (kinds, lens) = crate::text::tokens(text);
    let (_, rows) = crate::case::Case::roomy(crate::Entry::Exprs, kinds, lens).rows();
    let name = core::any::type_name::<T>().rsplit("::").next();
    let begins = format!("Root(Expr({}(", name.expect("a name"));
    assert!(crate::tree::show(&rows).starts_with(&begins), "`{text}`");
}

macro_rules! expr_parse {
    ($($ignored:tt)*) => {};
}

#[allow(dead_code, clippy::all)]
mod expr_binary {
    include!(concat!(env!("OUT_DIR"), "/expr_binary.rs"));
}
