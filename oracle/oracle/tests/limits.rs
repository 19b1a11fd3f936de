//! Refusals 1 to 5, 10 and 11 at their edges.

mod common;

use common::{case, deep, of_kinds, outcome, run};
use oracle::case::Case;
use oracle::{text, tree, Entry};

const ENTRIES: [Entry; 3] = [Entry::Root, Entry::Exprs, Entry::Format];
const ACCEPTED: (u32, u32) = (0, 0);

const IDENT: u8 = 1;
const NUMBER: u8 = 9;
const SEMICOLON: u8 = 26;
const COMMA: u8 = 24;

fn with_limit(mut case: Case, limit: u32) -> Case {
    case.limit = limit;
    case
}

fn with_separator(mut case: Case, separator: u32) -> Case {
    case.separator = separator;
    case
}

fn with_elements(mut case: Case, elements: usize) -> Case {
    case.elements = elements;
    case
}

#[test]
fn depth_limits() {
    for entry in ENTRIES {
        let at = |limit| outcome(&with_limit(case(entry, "a"), limit));
        let enough = if entry == Entry::Root { 3 } else { 2 };
        assert_eq!(at(0), (1, 0));
        assert_eq!(at(1), (10, 0));
        assert_eq!(at(enough - 1), (10, 0));
        assert_eq!(at(enough), ACCEPTED);
        assert_eq!(at(256), ACCEPTED);
        assert_eq!(at(257), (1, 0));
        assert_eq!(at(u32::MAX), (1, 0));
    }
    assert_eq!(outcome(&with_limit(case(Entry::Root, ""), 1)), ACCEPTED);
    assert_eq!(outcome(&with_limit(case(Entry::Root, ""), 0)), (1, 0));
}

#[test]
fn separators() {
    let at = |separator| outcome(&with_separator(case(Entry::Exprs, "a"), separator));
    for separator in 1..=127 {
        let want = if (14..=16).contains(&separator) {
            (1, 0)
        } else {
            ACCEPTED
        };
        assert_eq!(at(separator), want, "separator {separator}");
    }
    for separator in [0, 128, 255, 256, 256 + 24, u32::MAX] {
        assert_eq!(at(separator), (1, 0), "separator {separator}");
        for entry in [Entry::Root, Entry::Format] {
            assert_eq!(
                outcome(&with_separator(case(entry, "a"), separator)),
                ACCEPTED
            );
        }
    }
}

/// Unassigned numbers are all one kind with Other; each keeps its own in its row.
#[test]
fn unassigned_kinds() {
    const UNASSIGNED: u8 = 100;
    let list = of_kinds(Entry::Exprs, &[IDENT, UNASSIGNED, NUMBER]);
    for separator in [17, 96, 100, 127] {
        let case = with_separator(list.clone(), separator);
        let (answer, rows) = case.rows();
        assert_eq!(answer.number, 0, "separator {separator}");
        assert_eq!(
            tree::show(&rows),
            "Root(Expr(Path(ident)) 100 Expr(Lit(number)))"
        );
    }
    assert_eq!(outcome(&list), (6, 1));

    let other = of_kinds(Entry::Exprs, &[IDENT, 17, NUMBER]);
    assert_eq!(outcome(&with_separator(other, 127)), ACCEPTED);

    let (_, rows) = of_kinds(Entry::Root, &[96, 127]).rows();
    assert_eq!(tree::show(&rows), "Root(Error(Error(96 127)))");
}

#[test]
fn lists_of_different_length() {
    for entry in ENTRIES {
        let with = |kinds: &[u8], lens: &[u32]| Case::roomy(entry, kinds.to_vec(), lens.to_vec());
        assert_eq!(outcome(&with(&[IDENT], &[])), (2, 0));
        assert_eq!(outcome(&with(&[], &[1])), (2, 0));
        assert_eq!(outcome(&with(&[IDENT, IDENT], &[1])), (2, 0));
        assert_eq!(outcome(&with(&[IDENT], &[1, 1])), (2, 0));
    }
}

#[test]
fn token_counts() {
    let many = |count| of_kinds(Entry::Root, &vec![SEMICOLON; count]);
    let most = run(&many(65_535));
    // Two empty Errors, every token, Root.
    assert_eq!((most.number, most.rows), (0, 65_538));
    assert_eq!(outcome(&many(65_536)), (3, 0));

    let exprs = |count| of_kinds(Entry::Exprs, &[NUMBER, COMMA].repeat(count));
    assert_eq!(outcome(&exprs(32_767)), ACCEPTED);
    assert_eq!(outcome(&exprs(32_768)), (3, 0));
}

#[test]
fn kinds_out_of_range() {
    for bad in [0, 128, 129, 255] {
        for entry in ENTRIES {
            assert_eq!(outcome(&of_kinds(entry, &[bad])), (4, 0));
            assert_eq!(outcome(&of_kinds(entry, &[IDENT, 14, bad, bad])), (4, 2));
        }
    }
    assert_eq!(outcome(&of_kinds(Entry::Root, &[1, 127])), ACCEPTED);
}

#[test]
fn total_lengths() {
    let with = |lens: &[u32]| Case::roomy(Entry::Root, vec![SEMICOLON; lens.len()], lens.to_vec());
    assert_eq!(outcome(&with(&[16_777_216])), ACCEPTED);
    assert_eq!(outcome(&with(&[16_777_217])), (5, 0));
    assert_eq!(outcome(&with(&[16_777_215, 1, 0])), ACCEPTED);
    assert_eq!(outcome(&with(&[16_777_215, 1, 0, 1, 1])), (5, 3));
    // Sums that come back to something small in 32 bits.
    assert_eq!(outcome(&with(&[1, u32::MAX])), (5, 1));
    assert_eq!(outcome(&with(&[u32::MAX, 1])), (5, 0));
    assert_eq!(outcome(&with(&[0, 1 << 31, 1 << 31])), (5, 1));

    let mut lens = vec![256; 65_535];
    lens[65_534] += 256;
    assert_eq!(outcome(&with(&lens)), ACCEPTED);
    lens[65_534] += 1;
    assert_eq!(outcome(&with(&lens)), (5, 65_534));
}

/// 1 to 5 are tried in that order, and before the parse.
#[test]
fn order_of_refusals() {
    let many = Case::roomy(Entry::Exprs, vec![0; 65_536], vec![u32::MAX; 65_536]);
    let mut uneven = many.clone();
    uneven.lens.pop();
    assert_eq!(outcome(&with_limit(uneven.clone(), 0)), (1, 0));
    assert_eq!(outcome(&with_separator(uneven.clone(), 14)), (1, 0));
    assert_eq!(outcome(&uneven), (2, 0));
    assert_eq!(outcome(&many), (3, 0));

    let late = Case::roomy(Entry::Exprs, vec![IDENT, 0], vec![u32::MAX, 1]);
    assert_eq!(outcome(&late), (4, 1));
    let mut large = late;
    large.kinds[1] = SEMICOLON;
    assert_eq!(outcome(&with_elements(large, 0)), (5, 0));
}

/// The empty list in tables of no row, one row, and something between.
#[test]
fn smallest_tables() {
    for elements in 0..=9 {
        let want = if elements < 4 { (11, 0) } else { ACCEPTED };
        for entry in [Entry::Root, Entry::Exprs] {
            assert_eq!(outcome(&with_elements(case(entry, ""), elements)), want);
        }
        let format = with_elements(case(Entry::Format, ""), elements);
        assert_eq!(outcome(&format), (6, 0));
    }
}

/// Each table short of the need is refused where its rows end; a full one, and
/// one with odd elements, isn't.
#[test]
fn room() {
    let places = [0, 2, 2, 2, 4, 4, 4, 5, 5, 5, 5];
    for (rows, place) in places.into_iter().enumerate() {
        for odd in 0..4 {
            let short = with_elements(case(Entry::Exprs, "a + b"), rows * 4 + odd);
            assert_eq!(outcome(&short), (11, place), "{rows} rows and {odd}");
        }
    }
    for elements in 44..49 {
        let enough = with_elements(case(Entry::Exprs, "a + b"), elements);
        assert_eq!(run(&enough).rows, 11);
    }
    assert_eq!(
        outcome(&with_elements(case(Entry::Exprs, "1"), 15)),
        (11, 1)
    );
    // Pending trivia: "here" is the token after it.
    assert_eq!(
        outcome(&with_elements(case(Entry::Exprs, " a"), 3)),
        (11, 1)
    );
    assert_eq!(
        outcome(&with_elements(case(Entry::Root, " // b"), 3)),
        (11, 2)
    );
}

#[test]
fn lengths_of_zero() {
    let (kinds, _) = text::tokens("a + b");
    let case = Case::roomy(Entry::Exprs, kinds.clone(), vec![0; 5]);
    let (answer, rows) = case.rows();
    assert_eq!(answer.rows, 11);
    assert!(rows.iter().all(|row| row.start == 0 && row.length == 0));

    let case = Case::roomy(Entry::Exprs, kinds, vec![0, 0, 7, 0, 2]);
    let (_, rows) = case.rows();
    assert_eq!(tree::fault(&rows, &case.kinds, &case.lens), None);
    assert_eq!((rows[4].start, rows[4].length), (0, 7));
    assert_eq!((rows[7].start, rows[7].length), (7, 2));
}

/// The deepest of each rule that goes into itself, and one more.
#[test]
fn nesting() {
    deep(|| {
        let nest = |entry, before: &str, turn: &str, times: usize, after: &str| {
            outcome(&case(
                entry,
                &format!("{before}{}{after}", turn.repeat(times)),
            ))
        };
        use Entry::{Exprs, Root};
        assert_eq!(nest(Exprs, "", "-", 255, " 1"), ACCEPTED);
        assert_eq!(nest(Exprs, "", "-", 256, " 1"), (10, 257));
        assert_eq!(nest(Exprs, "", "(", 254, "a"), ACCEPTED);
        assert_eq!(nest(Exprs, "", "(", 255, "a"), (10, 255));
        assert_eq!(nest(Exprs, "", "a::<", 254, "a"), ACCEPTED);
        assert_eq!(nest(Exprs, "", "a::<", 255, "a"), (10, 765));
        // Statement and expression in turn, then the operators' own entry.
        assert_eq!(nest(Root, "", "{", 127, ""), ACCEPTED);
        assert_eq!(nest(Root, "", "{", 128, ""), (10, 128));
        // A use takes its first token unseen, so two braces make one level.
        assert_eq!(nest(Root, "use", "{", 509, ""), ACCEPTED);
        assert_eq!(nest(Root, "use", "{", 510, ""), (10, 510));
        assert_eq!(nest(Root, "let", "(", 255, ""), ACCEPTED);
        assert_eq!(nest(Root, "let", "(", 256, ""), (10, 256));
    });
}

/// Depth is tested before anything else in the rule: no row is asked for first.
#[test]
fn depth_comes_before_room() {
    let tight = with_elements(with_limit(case(Entry::Exprs, "a"), 1), 0);
    assert_eq!(outcome(&tight), (10, 0));
    let blank = with_elements(with_limit(case(Entry::Exprs, "- a"), 1), 4);
    assert_eq!(outcome(&blank), (10, 2));
    // Depth is given back: a thousand statements need no more than one.
    let wide = "a;".repeat(1000);
    assert_eq!(outcome(&with_limit(case(Entry::Root, &wide), 3)), ACCEPTED);
}
