//! What must hold of every answer, tried on generated cases.

mod common;

use common::deep;
use oracle::case::Case;
use oracle::generate::Source;
use oracle::{text, tree, Entry, DEEPEST};

/// Cases of small and middling size.
fn cases(seed: u64) -> impl Iterator<Item = Case> {
    let mut small = Source::new(seed, 24);
    let mut large = Source::new(seed + 1, 300);
    let small = (0..20_000).map(move |_| small.next_case().1);
    let large = (0..1_000).map(move |_| large.next_case().1);
    small.chain(large)
}

/// Rows hold together, and nothing but rows is left in the table.
#[test]
fn tables() {
    deep(|| {
        let mut accepted = 0;
        for case in cases(100) {
            let answer = common::run(&case);
            if answer.number == 0 {
                let (_, rows) = case.rows();
                let fault = tree::fault(&rows, &case.kinds, &case.lens);
                assert_eq!(fault, None, "{}", case.line());
                accepted += 1;
            }
        }
        assert!(accepted > 10_000, "only {accepted} accepted");
    });
}

/// A fault is one: each number of a good table, once changed, is found.
#[test]
fn faults() {
    let case = common::case(Entry::Root, "a; #[b] c(d)");
    let (_, rows) = case.rows();
    assert_eq!(tree::fault(&rows, &case.kinds, &case.lens), None);
    for at in 0..rows.len() {
        let changes: [fn(&mut tree::Row); 3] = [
            |row| row.back += 1,
            |row| row.start += 1,
            |row| row.length += 1,
        ];
        for change in changes {
            let mut rows = rows.clone();
            change(&mut rows[at]);
            assert!(
                tree::fault(&rows, &case.kinds, &case.lens).is_some(),
                "row {at}"
            );
        }
    }
    let cut = &rows[..rows.len() - 1];
    assert!(tree::fault(cut, &case.kinds, &case.lens).is_some());
}

/// More depth and more room change no tree and no refusal but 10 and 11.
#[test]
fn more_room() {
    deep(|| {
        for case in cases(200) {
            let (answer, rows) = case.rows();
            if (1..=DEEPEST).contains(&case.limit) && !matches!(answer.number, 10 | 11) {
                let mut roomy = case.clone();
                roomy.limit = DEEPEST;
                roomy.elements += 7 + case.kinds.len();
                assert_eq!(roomy.rows(), (answer, rows), "{}", case.line());
            }
        }
    });
}

/// All lists of a length over the kinds from 1 to `most`.
fn lists(most: usize, length: u32) -> impl Iterator<Item = Vec<u8>> {
    let digit = move |at: usize, place: u32| (at / most.pow(place) % most + 1) as u8;
    (0..most.pow(length)).map(move |at| (0..length).map(|place| digit(at, place)).collect())
}

/// Every list of up to two tokens over all kinds, and of three over those that
/// are assigned: each parse ends, and six rows a token and one more are enough.
#[test]
fn short_lists() {
    for kinds in lists(127, 0)
        .chain(lists(127, 1))
        .chain(lists(127, 2))
        .chain(lists(95, 3))
    {
        for entry in [Entry::Root, Entry::Exprs, Entry::Format] {
            let mut case = common::of_kinds(entry, &kinds);
            case.elements = (kinds.len() * 6 + 1) * oracle::ROW;
            let answer = common::run(&case);
            assert!(!matches!(answer.number, 1..=5 | 10 | 11), "{}", case.line());
        }
    }
}

/// A case is read back from its line, and its line has nothing else.
#[test]
fn lines() {
    deep(|| {
        for case in cases(300).take(2_000) {
            let line = case.line();
            assert_eq!(Case::read(&line), Some(case));
            assert!(line.split(' ').all(|number| number.parse::<u32>().is_ok()));
        }
    });
    assert_eq!(Case::read(""), None);
    assert_eq!(Case::read("3 0 256 0 0 0 0 0 0"), None);
    assert_eq!(Case::read("0 0 256 0 1 300 1 1 0 0 0"), None);
    assert_eq!(Case::read("0 0 256 0 2 1"), None);
}

/// The line of a small case, written out.
#[test]
fn line_by_hand() {
    let line = common::case(Entry::Exprs, "a 1").line();
    let want = "1 24 256 80 3 1 14 9 3 1 1 1 0 0 8 0 163 1 0 129 3 0 165 1 129 2 128 7";
    assert_eq!(line, want);
}

#[test]
fn seeds() {
    let first = |seed: u64| {
        let mut source = Source::new(seed, 40);
        (0..50).map(|_| source.next_case().1).collect::<Vec<_>>()
    };
    assert_eq!(first(1), first(1));
    assert_ne!(first(1), first(2));
}

/// The scope's rule for refusal 7, said without the grammar: the first operator
/// with an earlier one of its own non-associative binding and only tighter ones
/// between; the place is the earlier one's operand.
fn clash(line: &[(&str, usize)], bindings: &[u32]) -> Option<usize> {
    const NON_ASSOCIATIVE: [u32; 3] = [13, 5, 1];
    for right in 0..line.len() {
        let binding = bindings[right];
        let left = (0..right).rev().find(|left| bindings[*left] <= binding);
        match left {
            Some(left) if bindings[left] == binding && NON_ASSOCIATIVE.contains(&binding) => {
                return Some(line[left].1);
            }
            _ => {}
        }
    }
    None
}

const BINDINGS: [(&str, u32); 31] = [
    ("as", 13),
    ("is", 13),
    ("is not", 13),
    ("*", 11),
    ("/", 11),
    ("%", 11),
    ("+", 10),
    ("-", 10),
    ("<<", 9),
    (">>", 9),
    ("&", 8),
    ("^", 7),
    ("|", 6),
    ("==", 5),
    ("!=", 5),
    ("<", 5),
    (">", 5),
    ("<=", 5),
    (">=", 5),
    ("&&", 4),
    ("||", 3),
    ("+=", 1),
    ("-=", 1),
    ("*=", 1),
    ("/=", 1),
    ("%=", 1),
    ("&=", 1),
    ("^=", 1),
    ("|=", 1),
    ("<<=", 1),
    (">>=", 1),
];

/// All lines of three operators, one a spelling, with blanks between.
#[test]
fn operator_lines() {
    let mut refused = 0;
    for at in 0..BINDINGS.len().pow(3) {
        let picked = [at / 31 / 31, at / 31 % 31, at % 31].map(|at| BINDINGS[at]);
        let mut text = String::from("a");
        let mut line = Vec::new();
        for (spelling, _) in picked {
            text.push_str(&format!(" {spelling} "));
            line.push((spelling, text::tokens(&text).0.len()));
            text.push('b');
        }
        let want = clash(&line, &picked.map(|(_, binding)| binding));
        let answer = common::run(&common::case(Entry::Exprs, &text));
        let got = (answer.number == 7).then_some(answer.place as usize);
        assert_eq!(got, want, "`{text}`");
        assert!(matches!(answer.number, 0 | 7), "`{text}`");
        refused += usize::from(want.is_some());
    }
    assert!(refused > 1000);
}
