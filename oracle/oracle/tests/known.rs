//! The scope's known results, corners, errors that look right and departures.

use oracle::known::{self, Known};
use oracle::{parse, text, tree, Answer, Entry};

/// The answer as a known result is written down.
fn outcome(known: &Known) -> String {
    let (answer, rows) = known.case().rows();
    match answer.number {
        0 => tree::show(&rows),
        number => format!("{number} at {}", answer.place),
    }
}

fn all_hold(list: &[Known]) {
    let differ = |known: &&Known| outcome(known) != known.want;
    for known in list.iter().filter(differ) {
        let Known {
            entry, text, want, ..
        } = known;
        eprintln!(
            "{entry:?} `{text}`\n  is    {}\n  wants {want}",
            outcome(known)
        );
    }
    assert_eq!(
        list.iter().filter(differ).count(),
        0,
        "known results differ"
    );
}

#[test]
fn results() {
    all_hold(known::RESULTS);
}

#[test]
fn corners_and_departures() {
    all_hold(known::CORNERS);
}

#[test]
fn errors_that_look_right() {
    all_hold(known::PITFALLS);
}

#[test]
fn operators() {
    all_hold(known::OPERATORS);
}

#[test]
fn rules() {
    all_hold(known::RULES);
}

/// `a + b` to the last number, in a table with two odd elements and a row more.
#[test]
fn eleven_rows() {
    let (kinds, lens) = text::tokens("a + b");
    let mut table = [u32::MAX; 12 * 4 + 2];
    let answer = parse(Entry::Exprs, &kinds, &lens, &mut table, 24, 256);
    assert_eq!(
        answer,
        Answer {
            number: 0,
            place: 0,
            rows: 11
        }
    );
    #[rustfmt::skip]
    let want = [
        1, 0, 0, 1,
        163, 1, 0, 1,
        14, 0, 1, 1,
        38, 0, 2, 1,
        193, 1, 2, 1,
        14, 0, 3, 1,
        1, 0, 4, 1,
        163, 1, 4, 1,
        174, 8, 0, 5,
        129, 9, 0, 5,
        128, 10, 0, 5,
        0, 0, 0, 0, 0, 0,
    ];
    assert_eq!(table, want);
}

/// An empty node starts where the next token not yet written would.
#[test]
fn empty_nodes_start() {
    let mut table = [7; 40];
    let (kinds, _) = text::tokens("a=;");
    let answer = parse(Entry::Root, &kinds, &[10, 200, 3000], &mut table, 0, 256);
    assert_eq!(answer.rows, 10);
    let rows = tree::rows(&table, answer.rows);
    let error = rows.iter().find(|row| row.kind == 130).expect("an Error");
    assert_eq!((error.back, error.start, error.length), (0, 210, 0));
}

/// Statements, as the scope counts them: children of Root that aren't trivia.
#[test]
fn statement_counts() {
    let count = |text: &str| {
        let (kinds, lens) = text::tokens(text);
        let case = oracle::case::Case::roomy(Entry::Root, kinds, lens);
        let (answer, rows) = case.rows();
        assert_eq!(answer.number, 0);
        let mut at = rows.len() - 1;
        let mut kinds = Vec::new();
        while at > 0 {
            kinds.push(rows[at - 1].kind);
            at -= 1 + rows[at - 1].back as usize;
        }
        kinds.reverse();
        kinds
    };
    const EXPR: u32 = 129;
    const ERROR: u32 = 130;
    assert_eq!(count("..a..b"), [EXPR, EXPR]);
    assert_eq!(count("loop {}(y)"), [EXPR]);
    assert_eq!(count("while x {}(y)"), [EXPR, EXPR]);
    assert_eq!(count("(yield a)"), [EXPR, EXPR, ERROR]);
}
