//! The grammar of the Rust, unchanged, over the plain parser.

mod parser;

pub use parser::KEEPS_NEXT;
pub(crate) use parser::{Checkpoint, Parser};

#[allow(
    clippy::all,
    unused_imports,
    unused_macros,
    dead_code,
    clippy::module_inception
)]
mod grammar {
    include!(concat!(env!("OUT_DIR"), "/grammar.rs"));
}

use crate::compile::Result;
use crate::coverage::rule;
use crate::kinds::Kind;
use crate::Entry;

/// Runs one entry over the parser's tokens.
pub(crate) fn run(p: &mut Parser<'_>, entry: Entry, separator: Kind) -> Result<()> {
    match entry {
        Entry::Root => {
            p.reached(rule::root);
            grammar::root(p)
        }
        Entry::Exprs => {
            p.reached(rule::exprs);
            grammar::exprs(p, separator)
        }
        Entry::Format => {
            p.reached(rule::format);
            grammar::format(p)
        }
    }
}
