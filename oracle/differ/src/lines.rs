//! `differ lines`: operator lines, against the demand's sentence about them and
//! not against the grammar. Every grouping of a short line is tried; those of a
//! long one are counted by ranges, which is held to the trying on the short ones.

mod group;
mod line;
mod make;
mod rows;

use oracle::rng::Rng;
use oracle::{Answer, Entry};

use crate::drive::{self, Batches};
use crate::options::Options;
use crate::pair::{Judge, Pair};
use crate::run::{fresh_seed, seed_of};
use crate::tally::Tally;
use crate::Done;

use group::{by_ranges, by_trying_all, clash, Found, Group, SHORT};
use line::{Binding, Line, TABLE};
use rows::Rows;

/// The most operators of a line that is drawn.
const LONG: usize = 300;

/// Lines of a batch: a moment's work.
const BATCH: u64 = 500;

pub fn command(args: &[&str]) -> Done {
    let options = Options::read(args, &["--count", "--seed", "--threads"])?;
    let drawn = options.get("--count").unwrap_or(2000);
    let seed = options.get("--seed").unwrap_or_else(fresh_seed);
    eprintln!("seed {seed}");

    let short = (0..=SHORT).map(|length| (TABLE.len() as u64).pow(length as u32));
    let short: u64 = short.sum();
    let lines = short + drawn;
    let batches = Batches {
        count: lines.div_ceil(BATCH),
        cases: lines,
        threads: drive::threads(options.get("--threads")),
        work: |batch, pair: &mut Pair, tally: &mut Tally| {
            let mut rng = Rng::new(seed_of(seed, batch));
            for number in batch * BATCH..lines.min((batch + 1) * BATCH) {
                match number < short {
                    true => try_short(&mut rng, &numbered(number), pair, tally),
                    false => try_long(&mut rng, pair, tally),
                }
            }
        },
    };
    let (tally, took) = batches.run();
    println!(
        "seed {seed}: all {short} lines of up to {SHORT} operators, one a binding, and {drawn} of up to {LONG}, in {:.1} s: {tally}",
        took.as_secs_f64()
    );
    tally.verdict()
}

/// The line of that number, the shorter ones first, as lines of the table.
fn numbered(mut number: u64) -> Vec<usize> {
    let base = TABLE.len() as u64;
    let mut length = 0;
    while number >= base.pow(length) {
        number -= base.pow(length);
        length += 1;
    }
    let digit = |at| number / base.pow(at) % base;
    (0..length).map(|at| digit(at) as usize).collect()
}

fn try_short(rng: &mut Rng, line: &[usize], pair: &mut Pair, tally: &mut Tally) {
    let bindings: Vec<Binding> = line.iter().copied().map(Binding::of).collect();
    let (tried, counted) = (by_trying_all(&bindings), by_ranges(&bindings));
    assert_eq!(tried, counted, "two ways to count: {bindings:?}");
    let judge = Judge {
        name: "sentence",
        parse: tried_all,
    };
    tally.try_against(&judge, pair, &make::call(rng, line));
}

fn try_long(rng: &mut Rng, pair: &mut Pair, tally: &mut Tally) {
    let length = rng.between(1, LONG);
    let line = make::drawn(rng, length);
    let judge = Judge {
        name: "sentence",
        parse: counted,
    };
    tally.try_against(&judge, pair, &make::call(rng, &line));
}

/// The sentence as one side of a comparison.
fn tried_all(_: Entry, kinds: &[u8], lens: &[u32], table: &mut [u32], _: u32, _: u32) -> Answer {
    answer(by_trying_all, kinds, lens, table)
}

fn counted(_: Entry, kinds: &[u8], lens: &[u32], table: &mut [u32], _: u32, _: u32) -> Answer {
    answer(by_ranges, kinds, lens, table)
}

fn answer(find: fn(&[Binding]) -> Found, kinds: &[u8], lens: &[u32], table: &mut [u32]) -> Answer {
    let line = Line::read(kinds).expect("an operator line");
    table.fill(0);
    match reading(find, &line.bindings) {
        Ok(group) => {
            let rows = Rows::of(&line, kinds, lens, &group);
            table[..rows.len()].copy_from_slice(&rows);
            Answer::accepted(rows.len() / oracle::ROW)
        }
        Err(left) => Answer::refused(7, line.operands[left + 1] as u32),
    }
}

/// The one grouping, or the left operator of the clash: each line has one of both.
fn reading(find: fn(&[Binding]) -> Found, line: &[Binding]) -> Result<Group, usize> {
    let Found { count, group } = find(line);
    match (count, group, clash(line)) {
        (1, Some(group), None) => Ok(group),
        (0, None, Some(left)) => Err(left),
        (count, _, left) => panic!("{count} groupings, a clash with {left:?}: {line:?}"),
    }
}

#[cfg(test)]
mod tests {
    use super::*;
    use oracle::case::Case;
    use oracle::text;
    use std::collections::HashSet;

    #[test]
    fn every_line_comes_once() {
        let all: HashSet<Vec<usize>> = (0..1 + 11 + 121).map(numbered).collect();
        assert_eq!(all.len(), 133);
        assert!(all.iter().all(|line| line.len() <= 2));
    }

    /// 01's own example, all 11 rows.
    #[test]
    fn a_plus_b() {
        let (kinds, lens) = text::tokens("a + b");
        let mut table = [1; 44];
        let got = tried_all(Entry::Exprs, &kinds, &lens, &mut table, 24, 256);
        assert_eq!(got, Answer::accepted(11));
        #[rustfmt::skip]
        assert_eq!(table, [
            1, 0, 0, 1, 163, 1, 0, 1, 14, 0, 1, 1, 38, 0, 2, 1, 193, 1, 2, 1, 14, 0, 3, 1,
            1, 0, 4, 1, 163, 1, 4, 1, 174, 8, 0, 5, 129, 9, 0, 5, 128, 10, 0, 5,
        ]);
    }

    #[test]
    fn the_place_is_the_left_operators_operand() {
        for (text, place) in [("a==b==c", 2), ("a==b+c==d", 2), ("a == b == c", 4)] {
            let (kinds, lens) = text::tokens(text);
            let mut table = [1; 99];
            let got = counted(Entry::Exprs, &kinds, &lens, &mut table, 24, 256);
            assert_eq!(got, Answer::refused(7, place), "`{text}`");
            assert_eq!(table, [0; 99]);
        }
    }

    /// The lines that are drawn are of both kinds.
    #[test]
    fn some_are_accepted_and_some_refused() {
        let mut rng = Rng::new(1);
        let mut clashing = 0;
        for _ in 0..50 {
            let line = make::drawn(&mut rng, LONG).into_iter().map(Binding::of);
            clashing += usize::from(clash(&line.collect::<Vec<_>>()).is_some());
        }
        assert!((5..45).contains(&clashing));
    }

    /// A wrong answer is seen: the sentence against a parse with one operator less.
    #[test]
    fn a_difference_is_told() {
        let (kinds, lens) = text::tokens("a+b*c");
        let case = Case::roomy(Entry::Exprs, kinds, lens);
        let judge = Judge {
            name: "sentence",
            parse: |entry, kinds, lens, table, separator, limit| {
                counted(entry, &kinds[..3], &lens[..3], table, separator, limit)
            },
        };
        let mut tally = Tally::default();
        tally.try_against(&judge, &mut Pair::default(), &case);
        assert_eq!(tally.differing, 1);
    }
}
