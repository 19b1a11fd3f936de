//! The fixed list against the command that makes it, and what it reaches.

use std::collections::HashSet;

use oracle::case::Case;
use oracle::known;
use oracle::report::Report;
use oracle::{coverage, vectors};

const LIST: &str = include_str!("../../vectors/cases.txt");
const COUNT: &str = include_str!("../../vectors/count.txt");

#[test]
fn made_anew() {
    let made: Vec<String> = vectors::cases().iter().map(Case::line).collect();
    let list: Vec<&str> = LIST.lines().collect();
    assert_eq!(made.len(), list.len());
    for (made, kept) in made.iter().zip(list) {
        assert_eq!(made, kept);
    }
    let count = vectors::too_many().line();
    assert!(COUNT.lines().eq([count]), "count.txt differs");
}

#[test]
fn answered_anew() {
    for line in LIST.lines().chain(COUNT.lines()) {
        let case = Case::read(line).expect("a case");
        assert!(case.line() == line, "{line:.200}");
    }
}

#[test]
fn sizes() {
    let cases: HashSet<&str> = LIST.lines().collect();
    assert_eq!(cases.len(), LIST.lines().count(), "each once");
    assert!(cases.len() >= 2_000);
    assert!(LIST.len() < 400_000);
    for known in known::all() {
        assert!(cases.contains(known.case().line().as_str()));
    }
}

/// Every rule and node kind is reached, every refusal given, from every entry
/// that has it.
#[test]
fn reach() {
    let mut report = Report::new();
    for line in LIST.lines().chain(COUNT.lines()) {
        let case = Case::read(line).expect("a case");
        let (answer, rows) = case.rows();
        report.add(None, &case, &answer, &rows);
    }
    for (name, count) in coverage::report(&coverage::counts()) {
        assert!(count > 0, "{name} is not reached");
    }
    assert_eq!(report.kinds_missing(), [""; 0]);
    for number in 0..=11 {
        let by_entry = report.by_entry(number);
        assert!(by_entry.iter().sum::<u64>() > 0, "no {number}");
    }
    assert!(report.by_entry(0).iter().all(|count| *count > 100));
}
