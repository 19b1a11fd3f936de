//! `differ edges`: every limit at its edge, the fixed nights, and the stack that the
//! deepest lists use. Each case has the outcome that the scope gives it, besides the
//! oracle's.

use oracle::case::Case;
use oracle::{text, Entry, DEEPEST, ROW};

use crate::nests;
use crate::nights;
use crate::pair::Pair;
use crate::tally::Tally;
use crate::Done;

const ENTRIES: [Entry; 3] = [Entry::Root, Entry::Exprs, Entry::Format];
const ACCEPTED: (u32, u32) = (0, 0);

const IDENT: u8 = 1;
const NUMBER: u8 = 9;
const TRIVIA: [u8; 3] = [14, 15, 16];
const COMMA: u8 = 24;
const SEMICOLON: u8 = 26;

/// A case, and the number and place that it has to come to where the scope tells.
struct Edge {
    case: Case,
    want: Option<(u32, u32)>,
}

type Edges = Vec<Edge>;

type Group = (&'static str, fn() -> Edges);

const GROUPS: [Group; 10] = [
    ("token counts", token_counts),
    ("total lengths", total_lengths),
    ("depth limits", depth_limits),
    ("separators", separators),
    ("lists of different length", uneven_lists),
    ("kinds out of range", bad_kinds),
    ("order of refusals", order),
    ("tables", tables),
    ("zero lengths", zero_lengths),
    ("nesting", nesting),
];

pub fn command() -> Done {
    let mut all = Tally::default();
    let mut unlike = 0;
    for (name, edges) in GROUPS {
        unlike += try_group(name, edges(), &mut all);
    }
    unlike += nights::edges::try_all(&mut all);
    nests::print_stacks();

    println!(
        "edges: {} cases: {all}; {unlike} unlike the scope",
        all.cases
    );
    all.verdict()?;
    match unlike {
        0 => Ok(()),
        _ => Err(format!("{unlike} answers are not the scope's")),
    }
}

/// Tries a group on both sides; gives how many answers are not as wanted.
fn try_group(name: &str, edges: Edges, all: &mut Tally) -> usize {
    let mut pair = Pair::default();
    let mut tally = Tally::default();
    let mut unlike = 0;
    for Edge { case, want } in &edges {
        let answer = tally.try_case(&mut pair, case);
        let got = (answer.number, answer.place);
        if want.is_some_and(|want| want != got) {
            unlike += 1;
            println!("{name}: the oracle has {got:?}, the scope {want:?}");
        }
    }
    println!("{name}: {} cases: {tally}", tally.cases);
    all.add(tally);
    unlike
}

// Making cases.

fn of_text(entry: Entry, text: &str) -> Case {
    let (kinds, lens) = text::tokens(text);
    Case::roomy(entry, kinds, lens)
}

fn of_kinds(entry: Entry, kinds: &[u8]) -> Case {
    Case::roomy(entry, kinds.to_vec(), vec![1; kinds.len()])
}

fn of_lens(entry: Entry, lens: &[u32]) -> Case {
    Case::roomy(entry, vec![IDENT; lens.len()], lens.to_vec())
}

fn with_limit(case: &Case, limit: u32) -> Case {
    Case {
        limit,
        ..case.clone()
    }
}

fn with_separator(case: &Case, separator: u32) -> Case {
    Case {
        separator,
        ..case.clone()
    }
}

fn with_elements(case: &Case, elements: usize) -> Case {
    Case {
        elements,
        ..case.clone()
    }
}

fn edge(case: Case, want: (u32, u32)) -> Edge {
    let want = Some(want);
    Edge { case, want }
}

/// An edge at which the oracle alone decides.
fn open_edge(case: Case) -> Edge {
    Edge { case, want: None }
}

// The groups.

fn token_counts() -> Edges {
    let mut edges = Edges::new();
    for entry in ENTRIES {
        let empty = match entry {
            Entry::Format => (6, 0),
            _ => ACCEPTED,
        };
        edges.push(edge(of_kinds(entry, &[]), empty));
        for (count, want) in [(65_534, ACCEPTED), (65_535, ACCEPTED), (65_536, (3, 0))] {
            let mut list = [NUMBER, COMMA].repeat(count / 2);
            list.resize(count, NUMBER);
            // Statements recover from the comma.
            edges.push(edge(of_kinds(entry, &list), want));
            edges.push(edge(of_kinds(entry, &vec![IDENT; count]), want));
            let mut spaced = vec![TRIVIA[0]; count];
            spaced[0] = NUMBER;
            edges.push(edge(of_kinds(entry, &spaced), want));
        }
        edges.push(edge(of_kinds(entry, &vec![0; 70_000]), (3, 0)));
    }
    edges.push(edge(of_kinds(Entry::Root, &[SEMICOLON; 65_535]), ACCEPTED));
    edges.push(edge(of_kinds(Entry::Root, &[SEMICOLON; 65_536]), (3, 0)));
    edges
}

fn total_lengths() -> Edges {
    let mut last = vec![256; 65_535];
    last[65_534] = 512;
    let mut over = last.clone();
    over[65_534] += 1;
    let lists: [(&[u32], (u32, u32)); 14] = [
        (&[16_777_216], ACCEPTED),
        (&[16_777_217], (5, 0)),
        (&[16_777_215, 1, 0], ACCEPTED),
        (&[16_777_215, 1, 1], (5, 2)),
        (&[16_777_216, 0, 0], ACCEPTED),
        (&[0, 16_777_216, 0, 1, 1], (5, 3)),
        // Sums that come back to something small in 32 bits.
        (&[1, u32::MAX], (5, 1)),
        (&[u32::MAX, 1], (5, 0)),
        (&[u32::MAX], (5, 0)),
        (&[0, 1 << 31, 1 << 31], (5, 1)),
        (&[16_777_216, u32::MAX - 16_777_215], (5, 1)),
        (&[u32::MAX; 9], (5, 0)),
        (&last, ACCEPTED),
        (&over, (5, 65_534)),
    ];
    let mut edges = Edges::new();
    for entry in ENTRIES {
        for (lens, want) in lists {
            edges.push(edge(of_lens(entry, lens), want));
        }
    }
    edges
}

fn depth_limits() -> Edges {
    let mut edges = Edges::new();
    for entry in ENTRIES {
        let one = of_text(entry, "a");
        // A statement counts as well.
        let enough = if entry == Entry::Root { 3 } else { 2 };
        let outside = [0, DEEPEST + 1, 1 << 31, u32::MAX];
        edges.extend(outside.map(|limit| edge(with_limit(&one, limit), (1, 0))));
        for limit in 1..=DEEPEST {
            let want = if limit < enough { (10, 0) } else { ACCEPTED };
            edges.push(edge(with_limit(&one, limit), want));
        }
    }
    edges
}

fn separators() -> Edges {
    let mut edges = Edges::new();
    let outside = [0, 128, 255, 256, 256 + u32::from(COMMA), 1 << 31, u32::MAX];
    for entry in ENTRIES {
        let one = of_text(entry, "a");
        for separator in (1..=127).chain(outside) {
            let bad = outside.contains(&separator) || (14..=16).contains(&separator);
            let want = match entry {
                Entry::Exprs if bad => (1, 0),
                _ => ACCEPTED,
            };
            edges.push(edge(with_separator(&one, separator), want));
        }
    }
    // Other and every unassigned number are one separator.
    for separator in [17, 96, 127] {
        for kind in [17, 96, 100, 127] {
            let list = of_kinds(Entry::Exprs, &[NUMBER, kind, NUMBER]);
            edges.push(edge(with_separator(&list, separator), ACCEPTED));
        }
    }
    edges
}

fn uneven_lists() -> Edges {
    let mut edges = Edges::new();
    for entry in ENTRIES {
        for (kinds, lens) in [
            (0, 1),
            (1, 0),
            (1, 2),
            (2, 1),
            (65_535, 65_536),
            (65_536, 1),
        ] {
            let case = Case::roomy(entry, vec![IDENT; kinds], vec![1; lens]);
            edges.push(edge(case, (2, 0)));
        }
    }
    edges
}

fn bad_kinds() -> Edges {
    let mut edges = Edges::new();
    for entry in ENTRIES {
        for bad in [0].into_iter().chain(128..=255) {
            edges.push(edge(of_kinds(entry, &[bad]), (4, 0)));
            edges.push(edge(of_kinds(entry, &[IDENT, 14, bad, bad, 0]), (4, 2)));
        }
        let mut last = vec![IDENT; 65_535];
        last[65_534] = 128;
        edges.push(edge(of_kinds(entry, &last), (4, 65_534)));
    }
    // The kinds just inside.
    edges.push(edge(of_kinds(Entry::Root, &[1, 127]), ACCEPTED));
    edges
}

/// 1 to 5 in turn over the whole input, and all before the parse.
fn order() -> Edges {
    let mut edges = Edges::new();
    for entry in ENTRIES {
        let many = Case::roomy(entry, vec![0; 65_536], vec![u32::MAX; 65_536]);
        let mut uneven = many.clone();
        uneven.lens.pop();
        let late = Case::roomy(entry, vec![IDENT, 0], vec![u32::MAX, 1]);
        let mut large = late.clone();
        large.kinds[1] = SEMICOLON;
        edges.extend([
            edge(with_limit(&uneven, 0), (1, 0)),
            edge(uneven.clone(), (2, 0)),
            edge(many, (3, 0)),
            edge(late, (4, 1)),
            edge(with_elements(&large, 0), (5, 0)),
        ]);
        if entry == Entry::Exprs {
            edges.push(edge(with_separator(&uneven, 14), (1, 0)));
        }
    }
    edges
}

/// Every size of table from none to more than enough: full ones, one row short,
/// and odd elements at the end.
fn tables() -> Edges {
    let texts = [
        "",
        "1",
        "a + b",
        " // b",
        "a(b, c)?.d[1] = if x {}",
        "#[a] let b = c;",
    ];
    let mut edges = Edges::new();
    for entry in ENTRIES {
        for text in texts {
            let roomy = of_text(entry, text);
            let (answer, _) = roomy.run();
            let need = answer.rows as usize * ROW;
            for elements in 0..need + 10 {
                let case = with_elements(&roomy, elements);
                edges.push(match answer.number {
                    0 if elements >= need => edge(case, ACCEPTED),
                    0 => short_of_rows(case),
                    _ => open_edge(case),
                });
            }
        }
    }
    let places = [0, 2, 2, 2, 4, 4, 4, 5, 5, 5, 5];
    let sum = of_text(Entry::Exprs, "a + b");
    for (rows, place) in places.into_iter().enumerate() {
        edges.push(edge(with_elements(&sum, rows * ROW + 3), (11, place)));
    }
    let format = of_text(Entry::Format, "");
    edges.extend((0..=5).map(|elements| edge(with_elements(&format, elements), (6, 0))));
    edges
}

/// Refusal 11; where the row is missing is the oracle's to say.
fn short_of_rows(case: Case) -> Edge {
    let (answer, _) = case.run();
    edge(case, (11, answer.place))
}

fn zero_lengths() -> Edges {
    let mut edges = Edges::new();
    let (kinds, _) = text::tokens("a + b");
    for entry in ENTRIES {
        for lens in [[0; 5], [0, 0, 7, 0, 2], [3, 0, 0, 0, 0], [0, 0, 0, 0, 9]] {
            let case = Case::roomy(entry, kinds.clone(), lens.to_vec());
            edges.push(edge(case, ACCEPTED));
        }
        let many = Case::roomy(entry, vec![IDENT; 65_535], vec![0; 65_535]);
        edges.push(edge(many, ACCEPTED));
    }
    edges
}

/// The deepest that each nest may go, and one more.
fn nesting() -> Edges {
    nests::at_the_limit().map(open_edge).collect()
}
