//! `differ all`: every list up to a length, over one kind of each class.

use oracle::case::Case;
use oracle::{Entry, ROW};

use crate::drive::{self, Batches};
use crate::options::Options;
use crate::pair::Pair;
use crate::tally::Tally;
use crate::Done;

/// A kind for each kind of test that grammar.rs makes, where several of its rules
/// that begin with a word of their own are stood for by one.
pub const SHORT: [u8; 33] = [
    1, 2, 5, 9, 10, 14, 17, 18, 19, 20, 21, 22, 23, 24, 25, 26, 27, 28, 29, 30, 34, 35, 36, 38, 50,
    52, 64, 67, 74, 81, 84, 89, 93,
];

/// Kinds that no test of grammar.rs or expr_binary.rs tells from another, and that
/// other: literals, trivia, operators of one binding. The unassigned numbers are
/// left out too, being as Other is.
#[rustfmt::skip]
const ALIKE: [(u8, u8); 20] = [
    (8, 7), (11, 7), (12, 7), (13, 7), (15, 14), (16, 14), (40, 39),
    (42, 41), (43, 41), (44, 41), (48, 47), (55, 54), (56, 54), (57, 54),
    (58, 54), (59, 54), (60, 54), (61, 54), (62, 54), (63, 54),
];

/// The kind that stands for a kind in the full list.
fn stands_for(kind: u8) -> u8 {
    let alike = ALIKE.iter().find(|(from, _)| *from == kind);
    alike.map_or(kind, |(_, to)| *to)
}

/// One kind of every class that the two files tell apart.
pub fn full() -> Vec<u8> {
    (1..=95).filter(|kind| stands_for(*kind) == *kind).collect()
}

const ENTRIES: [Entry; 3] = [Entry::Root, Entry::Exprs, Entry::Format];

/// Lists of a batch: a moment's work.
const BATCH: u64 = 20_000;

pub fn command(args: &[&str]) -> Done {
    let (flags, args): (Vec<&str>, Vec<&str>) = args.iter().partition(|arg| **arg == "--full");
    let options = Options::read(&args, &["--length", "--threads"])?;
    let kinds = if flags.is_empty() {
        SHORT.to_vec()
    } else {
        full()
    };
    let lists = Lists::new(kinds, options.need("--length")? as u32)?;
    let cases = lists.count * ENTRIES.len() as u64;

    let batches = Batches {
        count: cases.div_ceil(BATCH),
        cases,
        threads: drive::threads(options.get("--threads")),
        work: |batch, pair: &mut Pair, tally: &mut Tally| {
            let from = batch * BATCH;
            lists.some(from..cases.min(from + BATCH), pair, tally);
        },
    };
    let (tally, took) = batches.run();
    println!(
        "all lists up to length {} of {} kinds, {} entries: {} cases in {:.1} s, {} a second: {tally}",
        lists.longest,
        lists.kinds.len(),
        ENTRIES.len(),
        tally.cases,
        took.as_secs_f64(),
        drive::per_second(tally.cases, took)
    );
    tally.verdict()
}

/// All lists, numbered: the shorter ones first, each as digits.
struct Lists {
    kinds: Vec<u8>,
    longest: u32,
    count: u64,
}

impl Lists {
    fn new(kinds: Vec<u8>, longest: u32) -> Result<Lists, String> {
        let base = kinds.len() as u64;
        let of_length = |length| base.checked_pow(length);
        let count = (0..=longest).try_fold(0u64, |sum, length| sum.checked_add(of_length(length)?));
        // Three entries of each have to be counted as well.
        let count = count.filter(|count| count.checked_mul(4).is_some());
        let count = count.ok_or_else(|| format!("--length {longest} is too long"))?;
        Ok(Lists {
            kinds,
            longest,
            count,
        })
    }

    /// Tries the lists of a range, numbered on from entry to entry.
    fn some(&self, range: std::ops::Range<u64>, pair: &mut Pair, tally: &mut Tally) {
        let mut case = Case::roomy(Entry::Root, Vec::new(), Vec::new());
        for number in range {
            let entry = ENTRIES[(number / self.count) as usize];
            if case.entry != entry {
                case = Case::roomy(entry, Vec::new(), Vec::new());
            }
            self.list(number % self.count, &mut case);
            tally.try_case(pair, &case);
        }
    }

    /// Puts a list into a case. The lengths 1, 2, 4 .. tell sums apart.
    fn list(&self, mut number: u64, case: &mut Case) {
        let base = self.kinds.len() as u64;
        let mut of_length = 1;
        case.kinds.clear();
        case.lens.clear();
        while number >= of_length {
            number -= of_length;
            of_length *= base;
            case.lens.push(1 << (case.lens.len() % 16));
        }
        for _ in 0..case.lens.len() {
            case.kinds.push(self.kinds[(number % base) as usize]);
            number /= base;
        }
        case.elements = (case.kinds.len() * 8 + 2) * ROW;
    }
}

#[cfg(test)]
mod tests {
    use super::*;
    use std::collections::HashSet;

    #[test]
    fn every_list_comes_once() {
        let lists = Lists::new(vec![3, 5, 7], 3).unwrap();
        assert_eq!(lists.count, 1 + 3 + 9 + 27);
        let mut case = Case::roomy(Entry::Root, Vec::new(), Vec::new());
        let mut seen = HashSet::new();
        for number in 0..lists.count {
            lists.list(number, &mut case);
            assert_eq!(case.kinds.len(), case.lens.len());
            assert!(case.kinds.len() <= 3);
            assert!(seen.insert(case.kinds.clone()));
        }
    }

    /// Answer and shape, without the leaves' own kinds.
    fn shape(case: &Case) -> (oracle::Answer, Vec<oracle::tree::Row>) {
        let (answer, mut rows) = case.rows();
        for row in rows.iter_mut().filter(|row| row.is_leaf()) {
            row.kind = 0;
        }
        (answer, rows)
    }

    /// Kinds left out of the full list may be put for those that stand for them:
    /// the oracle makes the same of it.
    #[test]
    fn kinds_left_out_are_alike() {
        let other = |kind| match kind {
            96..=127 => 17,
            kind => stands_for(kind),
        };
        let mut source = oracle::generate::Source::new(5, 60);
        for _ in 0..20_000 {
            let (_, case) = source.next_case();
            let mut replaced = case.clone();
            replaced
                .kinds
                .iter_mut()
                .for_each(|kind| *kind = other(*kind));
            if let Ok(separator) = u8::try_from(case.separator) {
                replaced.separator = other(separator).into();
            }
            // With one separator, what was no separator may become one.
            let clashes = |kind: &u8| other(*kind) == other(case.separator as u8);
            if case
                .kinds
                .iter()
                .all(|kind| !clashes(kind) || u32::from(*kind) == case.separator)
            {
                assert_eq!(shape(&case), shape(&replaced), "{}", case.line());
            }
        }
    }

    #[test]
    fn the_short_kinds_are_among_the_full_ones() {
        let full = full();
        assert_eq!(full.len(), 75);
        assert!(SHORT.iter().all(|kind| full.contains(kind)));
    }
}
