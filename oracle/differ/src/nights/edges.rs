//! Fixed nights, each with the outcome that the request gives it, besides the
//! oracle's: every answer, and a table of the accepted jobs' own rows and zeros.

use oracle::night::Job;
use oracle::{parse, text, Answer, ROW};

use crate::lists::Tokens;
use crate::pair::Pair;
use crate::tally::Tally;

use super::both::{job, Night, Outcome};
use super::try_night;

/// A night, and each job's answer or the number that refuses the whole.
struct Edge {
    night: Night,
    want: Result<Vec<Answer>, u32>,
}

type Edges = Vec<Edge>;

type Group = (&'static str, fn() -> Edges);

const GROUPS: [Group; 10] = [
    ("no jobs", no_jobs),
    ("ranges", ranges),
    ("entries, separators, limits", records),
    ("12 before 1 to 5", order),
    ("each job by itself", apart),
    ("overlapping ranges", overlapping),
    ("refused between others", refused_between),
    ("tables that fill up", full_tables),
    ("refused as a whole", whole),
    ("long lists", long_lists),
];

const MAX: u32 = u32::MAX;
const ROOT: u32 = 0;
const EXPRS: u32 = 1;
const FORMAT: u32 = 2;
const IDENT: u8 = 1;
const NUMBER: u8 = 9;

/// Odd elements behind the rows of a roomy table.
const ODD: usize = 3;

/// Tries every group on both sides; gives how many outcomes are not as wanted.
pub fn try_all(all: &mut Tally) -> usize {
    GROUPS
        .into_iter()
        .map(|(name, edges)| try_group(name, &edges(), all))
        .sum()
}

fn try_group(name: &str, edges: &[Edge], all: &mut Tally) -> usize {
    let mut pair = Pair::default();
    let mut tally = Tally::default();
    let mut unlike = 0;
    for edge in edges {
        let got = try_night(&edge.night, &mut pair, &mut tally);
        if !edge.is_wanted(&got, pair.wanted()) {
            unlike += 1;
            println!(
                "nights, {name}: the oracle has {got:?}, the request {:?}",
                edge.want
            );
        }
    }
    println!("nights, {name}: {} cases: {tally}", tally.cases);
    all.add(tally);
    unlike
}

impl Edge {
    fn is_wanted(&self, got: &Outcome, table: &[u32]) -> bool {
        let (whole, jobs, rows) = match &self.want {
            Ok(answers) => {
                let rows = self.rows(answers);
                let answers = answers.iter().copied().map(Some).collect();
                (Answer::accepted(rows.len() / ROW), answers, rows)
            }
            Err(number) => {
                let unwritten = vec![None; self.night.jobs.len()];
                (Answer::refused(*number, 0), unwritten, Vec::new())
            }
        };
        let is_zero = |element: &u32| *element == 0;
        let rows_then_zeros = table.starts_with(&rows) && table[rows.len()..].iter().all(is_zero);
        (got.whole, &got.jobs) == (whole, &jobs) && rows_then_zeros
    }

    /// The rows of each accepted job, parsed alone into a table just large enough.
    fn rows(&self, answers: &[Answer]) -> Vec<u32> {
        let answered = self.night.jobs.iter().zip(answers);
        let accepted = answered.filter(|(_, answer)| answer.number == 0);
        let own = accepted.map(|(job, answer)| {
            let mut own = vec![MAX; answer.rows as usize * ROW];
            self.night.single(parse, job, &mut own);
            own
        });
        own.collect::<Vec<_>>().concat()
    }
}

// Making nights.

/// A job and its answer.
type Wanted = (Job, Answer);

fn rows(job: Job, rows: usize) -> Wanted {
    (job, Answer::accepted(rows))
}

fn refused(job: Job, number: u32, place: u32) -> Wanted {
    (job, Answer::refused(number, place))
}

/// Jobs over lists, with room enough.
fn over((kinds, lens): Tokens, jobs: &[Wanted]) -> Edge {
    let (jobs, answers) = jobs.iter().copied().unzip();
    let mut night = Night {
        kinds,
        lens,
        jobs,
        elements: 0,
    };
    night.elements = night.roomy() + ODD;
    let want = Ok(answers);
    Edge { night, want }
}

fn over_text(text: &str, jobs: &[Wanted]) -> Edge {
    over(text::tokens(text), jobs)
}

/// The jobs all together, and each alone.
fn together_and_alone(tokens: Tokens, jobs: &[Wanted]) -> Edges {
    let alone = jobs.chunks(1).map(|job| over(tokens.clone(), job));
    alone.chain([over(tokens.clone(), jobs)]).collect()
}

fn with_elements(mut edge: Edge, elements: usize) -> Edge {
    edge.night.elements = elements;
    edge
}

fn exprs(first: u32, count: u32) -> Job {
    job(EXPRS, first, count)
}

// The groups.

fn no_jobs() -> Edges {
    let mut edges = Edges::new();
    for text in ["", "a + b"] {
        let sizes = [0, 1, 4, 7, 100];
        edges.extend(sizes.map(|elements| with_elements(over_text(text, &[]), elements)));
    }
    edges
}

fn ranges() -> Edges {
    let inside = [
        rows(exprs(0, 3), 8),
        // The last token, then nothing behind it.
        rows(exprs(2, 1), 4),
        rows(exprs(3, 0), 1),
        rows(job(ROOT, 3, 0), 1),
        refused(job(FORMAT, 3, 0), 6, 0),
        rows(exprs(1, 0), 1),
    ];
    let outside = [
        (2, 2),
        (3, 1),
        (0, 4),
        (4, 0),
        (4, 1),
        (MAX, 0),
        (0, MAX),
        // Sums that come back to something inside in 32 bits.
        (1, MAX),
        (2, MAX),
        (MAX, 1),
        (MAX, 4),
        (1 << 31, 1 << 31),
        (MAX, MAX),
    ];
    let outside = outside.map(|(first, count)| refused(exprs(first, count), 12, 0));
    let all = [&inside[..], &outside, &inside].concat();
    let mut edges = together_and_alone(text::tokens("1,2"), &all);

    let nothing = [
        rows(job(ROOT, 0, 0), 1),
        rows(exprs(0, 0), 1),
        refused(job(FORMAT, 0, 0), 6, 0),
        refused(exprs(0, 1), 12, 0),
        refused(exprs(1, 0), 12, 0),
        refused(exprs(1, MAX), 12, 0),
    ];
    edges.extend(together_and_alone(text::tokens(""), &nothing));
    edges
}

/// What a record may ask, at its edges.
fn records() -> Edges {
    let mut jobs: Vec<Wanted> = Vec::new();
    let no_entries = [3, 4, 255, 256, 257, 258, 1 << 16, 1 << 31, MAX];
    jobs.extend(no_entries.map(|entry| refused(job(entry, 0, 1), 12, 0)));
    for entry in [ROOT, EXPRS, FORMAT] {
        let one = job(entry, 0, 1);
        jobs.push(rows(one, 4));
        for separator in [0, 14, 15, 16, 128, 255, 256 + 24, 1 << 31, MAX] {
            let one = Job { separator, ..one };
            // Not looked at by an entry that has none.
            jobs.push(match entry {
                EXPRS => refused(one, 1, 0),
                _ => rows(one, 4),
            });
        }
        let no_limits = [0, 257, 512, 1 << 31, MAX];
        jobs.extend(no_limits.map(|limit| refused(Job { limit, ..one }, 1, 0)));
        let enough = if entry == ROOT { 3 } else { 2 };
        for limit in 1..=4 {
            let one = Job { limit, ..one };
            jobs.push(match limit < enough {
                true => refused(one, 10, 0),
                false => rows(one, 4),
            });
        }
    }
    together_and_alone(text::tokens("a"), &jobs)
}

fn order() -> Edges {
    // A good token, one with a bad kind and too long, one that is too long.
    let tokens = (vec![IDENT, 0, IDENT], vec![1, MAX, MAX]);
    let no_limit = |job| Job { limit: 0, ..job };
    let no_separator = |job| Job {
        separator: 14,
        ..job
    };
    let jobs = [
        refused(no_limit(exprs(1, 3)), 12, 0),
        refused(no_separator(exprs(1, 3)), 12, 0),
        refused(exprs(1, 3), 12, 0),
        refused(no_limit(job(3, 1, 1)), 12, 0),
        refused(job(3, 0, 3), 12, 0),
        refused(job(3, 2, 1), 12, 0),
        refused(job(3, 3, 1), 12, 0),
        refused(no_limit(exprs(0, 3)), 1, 0),
        refused(no_separator(exprs(0, 3)), 1, 0),
        refused(exprs(0, 3), 4, 1),
        refused(exprs(2, 1), 5, 0),
    ];
    together_and_alone(tokens, &jobs)
}

/// Kinds, totals and places are those of the job's own tokens.
fn apart() -> Edges {
    let most = 16_777_216;
    let totals = [
        rows(exprs(0, 1), 4),
        rows(exprs(1, 1), 4),
        refused(exprs(0, 2), 5, 1),
        rows(exprs(1, 2), 5),
        refused(exprs(1, 3), 5, 2),
        rows(exprs(2, 2), 5),
        rows(exprs(3, 1), 4),
    ];
    let lens = vec![most, most, 0, most];
    let mut edges = together_and_alone((vec![IDENT; 4], lens), &totals);

    // 1 <0> 2
    let kinds = [
        rows(exprs(0, 1), 4),
        refused(exprs(0, 2), 4, 1),
        refused(exprs(1, 2), 4, 0),
        rows(exprs(2, 1), 4),
    ];
    edges.extend(together_and_alone(
        (vec![NUMBER, 0, NUMBER], vec![5, 6, 7]),
        &kinds,
    ));

    let shallow = |job| Job { limit: 1, ..job };
    let places = [
        refused(exprs(0, 7), 7, 4),
        refused(exprs(1, 6), 6, 0),
        refused(exprs(2, 5), 7, 2),
        refused(exprs(2, 2), 6, 2),
        refused(shallow(exprs(2, 1)), 10, 0),
        // The number is a leaf already when `expr_binary` is entered.
        refused(shallow(exprs(0, 3)), 10, 1),
    ];
    edges.extend(together_and_alone(text::tokens("1,a==b==c"), &places));
    edges
}

fn overlapping() -> Edges {
    let jobs = [
        rows(exprs(0, 3), 9),
        rows(exprs(0, 1), 4),
        rows(exprs(2, 1), 4),
        refused(exprs(1, 2), 6, 0),
        rows(exprs(0, 3), 9),
        refused(exprs(0, 2), 6, 2),
        rows(job(FORMAT, 0, 3), 9),
    ];
    vec![over_text("a+b", &jobs)]
}

/// A refused job takes no rows: the next one's stand right behind the one before.
fn refused_between() -> Edges {
    let one = rows(exprs(0, 1), 4);
    let clash = refused(exprs(2, 5), 7, 2);
    let at_once = refused(Job { limit: 0, ..one.0 }, 1, 0);
    let no_entry = refused(job(3, 0, 1), 12, 0);
    let nights: [&[Wanted]; 6] = [
        &[one, clash, one],
        &[clash, one],
        &[one, clash],
        &[one, at_once, clash, no_entry, one, clash, one],
        &[clash],
        &[clash, at_once, no_entry, clash],
    ];
    nights.map(|jobs| over_text("1,a==b==c", jobs)).into()
}

fn full_tables() -> Edges {
    let one = rows(exprs(0, 1), 4);
    let short = |place| refused(one.0, 11, place);
    let with_rows = |rows: usize, jobs: &[Wanted]| {
        let odd = (0..ROW).map(|odd| rows * ROW + odd);
        let tokens = "1,a + b";
        odd.map(|elements| with_elements(over_text(tokens, jobs), elements))
            .collect::<Edges>()
    };
    // Full behind the third, or one to three rows short of the fourth.
    let mut edges = Edges::new();
    for (left, place) in [(0, 0), (1, 1), (2, 1), (3, 1)] {
        let jobs = [one, one, one, short(place), short(place)];
        edges.extend(with_rows(12 + left, &jobs));
    }
    edges.extend(with_rows(16, &[one, one, one, one, short(0)]));

    // Those that need no row are answered as ever.
    let rest = [
        short(0),
        refused(exprs(0, 0), 11, 0),
        refused(job(FORMAT, 0, 0), 6, 0),
        refused(Job { limit: 0, ..one.0 }, 1, 0),
        refused(job(3, 0, 1), 12, 0),
        refused(exprs(7, 1), 12, 0),
    ];
    edges.extend(with_rows(12, &[&[one; 3][..], &rest].concat()));
    edges.extend(with_rows(0, &rest));

    // Too full for one, not for the next; the place is the job's own.
    let sum = refused(exprs(2, 5), 11, 4);
    edges.extend(with_rows(16, &[one, one, one, sum, one, short(0)]));
    let nothing = rows(exprs(0, 0), 1);
    edges.extend(with_rows(
        1,
        &[short(1), nothing, refused(exprs(1, 0), 11, 0)],
    ));
    edges
}

/// So many jobs, refused as a whole by a number.
fn refused_whole(jobs: usize, tokens: (usize, usize), elements: usize, number: u32) -> Edge {
    let night = Night {
        kinds: vec![NUMBER; tokens.0],
        lens: vec![1; tokens.1],
        jobs: vec![exprs(0, 1); jobs],
        elements,
    };
    let want = Err(number);
    Edge { night, want }
}

fn whole() -> Edges {
    let mut edges = vec![
        over_text("1", &[rows(exprs(0, 1), 4); 400]),
        over_text("1", &[rows(exprs(1, 0), 1); 400]),
        over_text("1", &[refused(exprs(2, 0), 12, 0); 400]),
        over_text("", &[rows(exprs(0, 0), 1); 399]),
    ];
    for elements in [0, 1, 4, 6403] {
        for jobs in [401, 402, 500] {
            edges.push(refused_whole(jobs, (1, 1), elements, 12));
            edges.push(refused_whole(jobs, (0, 0), elements, 12));
            // 12, not 2.
            edges.push(refused_whole(jobs, (1, 2), elements, 12));
        }
        for jobs in [0, 1, 3, 400] {
            for tokens in [(0, 1), (1, 0), (2, 3), (3, 2), (65_536, 1)] {
                edges.push(refused_whole(jobs, tokens, elements, 2));
            }
        }
    }
    edges
}

/// More tokens than a job may have: 3 looks at a job's own count.
fn long_lists() -> Edges {
    let lists = |tokens| (vec![IDENT; tokens], vec![1; tokens]);
    let no_limit = |job| Job { limit: 0, ..job };
    let jobs = [
        rows(exprs(0, 1), 4),
        rows(exprs(65_535, 1), 4),
        rows(exprs(65_536, 0), 1),
        refused(exprs(0, 65_536), 3, 0),
        rows(exprs(1, 65_535), 65_538),
        refused(exprs(1, 65_536), 12, 0),
        refused(job(3, 0, 65_536), 12, 0),
        refused(no_limit(exprs(0, 65_536)), 1, 0),
        rows(exprs(0, 65_535), 65_538),
    ];
    let mut edges = together_and_alone(lists(65_536), &jobs);
    let longer = [
        refused(job(ROOT, 0, 140_000), 3, 0),
        refused(job(FORMAT, 4, 139_996), 3, 0),
        rows(exprs(139_000, 1000), 1003),
        refused(exprs(139_000, 1001), 12, 0),
        // A count that is small in 16 bits.
        refused(exprs(70_000, 65_537), 3, 0),
        rows(exprs(74_465, 65_535), 65_538),
    ];
    edges.extend(together_and_alone(lists(140_000), &longer));
    edges
}
