//! The fixed list of `vectors/cases.txt`: the known results, then generated
//! cases of three sizes.

use std::collections::HashSet;

use crate::case::Case;
use crate::generate::Source;
use crate::known::{self, Known};
use crate::{Entry, MOST_TOKENS, ROW};

/// Seed, largest size and count of each generated part.
const PARTS: [(u64, usize, usize); 3] = [(1, 10, 1200), (2, 20, 800), (3, 40, 400)];

/// Every case of the list, each once.
pub fn cases() -> Vec<Case> {
    let mut cases: Vec<Case> = known::all().map(Known::case).collect();
    for (seed, max_tokens, count) in PARTS {
        let mut source = Source::new(seed, max_tokens);
        cases.extend((0..count).map(|_| source.next_case().1));
    }
    let mut seen = HashSet::new();
    cases.retain(|case| seen.insert(case.clone()));
    cases
}

/// One token too many, kept in `vectors/count.txt`: refusal 3 can't be had from
/// anything shorter, and so long a line would drown the list. Its table is small:
/// what is refused before the parse needs no room, and `crates/replay` has little.
pub fn too_many() -> Case {
    let count = MOST_TOKENS + 1;
    Case {
        elements: 8 * ROW,
        ..Case::roomy(Entry::Root, vec![1; count], vec![0; count])
    }
}
