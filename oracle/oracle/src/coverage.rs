//! Which rules of the grammar were reached, and how often. Counts are kept for
//! each thread, so that parsing itself needs no place to keep them in.

use std::cell::Cell;

include!(concat!(env!("OUT_DIR"), "/rules.rs"));

thread_local! {
    static COUNTS: [Cell<u64>; RULES.len()] = const { [const { Cell::new(0) }; RULES.len()] };
}

/// Whether entries are counted at all; where speed is measured they aren't.
pub const COUNTED: bool = cfg!(feature = "coverage");

/// Counts one entry of a rule.
#[inline(always)]
pub(crate) fn count(rule: usize) {
    if COUNTED {
        COUNTS.with(|counts| counts[rule].set(counts[rule].get() + 1));
    }
}

/// This thread's counts so far, in the order of [`RULES`].
pub fn counts() -> Vec<u64> {
    COUNTS.with(|counts| counts.iter().map(Cell::get).collect())
}

/// Sets this thread's counts, to start anew or to forget what a trial run did.
pub fn set_counts(to: &[u64]) {
    COUNTS.with(|counts| {
        for (count, to) in counts.iter().zip(to) {
            count.set(*to);
        }
    });
}

/// Starts counting anew.
pub fn reset() {
    set_counts(&[0; RULES.len()]);
}

/// Functions without an attribute aren't counted themselves. Each is read off a
/// rule that goes with it: its caller, or what it calls.
const STANDS_FOR: [(&str, &str); 5] = [
    ("is_expr", "expr_tuple_or_group"),
    ("is_range", "outer_expr_with"),
    ("labels", "expr"),
    ("kind_is_callable", "expr_chain"),
    ("recover", "is_stmt_recovering"),
];

/// The rule whose count a function's count is read from.
pub fn counted_by(name: &'static str) -> &'static str {
    let found = STANDS_FOR.iter().find(|(bare, _)| *bare == name);
    found.map_or(name, |(_, by)| by)
}

/// Every function of the grammar with its count.
pub fn report(counts: &[u64]) -> Vec<(&'static str, u64)> {
    let index = |name| RULES.iter().position(|(known, _)| *known == name);
    let count = |name| index(counted_by(name)).map_or(0, |at| counts[at]);
    RULES.iter().map(|(name, _)| (*name, count(name))).collect()
}
