//! A night against the single calls, one after the other, on the oracle's fixed lists.

mod asked;

use asked::{Asked, CASES};
use krosstavel::{batch, room, Answer, Entry, Job, Night, Reason, Refusal, Tree, MOST_JOBS, MOST_TOKENS, ROW};

const NOISE: u32 = 0xa5a5_a5a5;

fn all_asked() -> Vec<Asked> {
    CASES.lines().map(|line| Asked::read(&mut asked::numbers(line))).collect()
}

/// A night of scripts, each with lists of its own.
fn pushed<'a>(scripts: impl IntoIterator<Item = &'a Asked>) -> Night<'static> {
    let mut night = Night::new();
    for script in scripts {
        night.push(script.entry, &script.kinds, &script.lens, script.limit);
    }
    night
}

/// How many jobs were accepted, refused for want of rows, and refused with each other number.
#[derive(Default)]
struct Seen {
    accepted: usize,
    no_room: usize,
    numbers: [usize; 13],
}

impl Seen {
    fn add(&mut self, outcome: &Result<Tree, Refusal>) {
        match outcome {
            Ok(_) => self.accepted += 1,
            Err(refusal) if refusal.reason() == Reason::Room => self.no_room += 1,
            Err(refusal) => self.numbers[refusal.number() as usize] += 1,
        }
    }
}

/// Every outcome is that of the single call on the script and the part of the table that is still free, and the tables end the same.
fn compare(scripts: &[Asked], elements: usize, seen: &mut Seen) {
    let mut table = vec![NOISE; elements];
    let night = pushed(scripts);
    let outcomes = night.run(&mut table).unwrap();
    assert_eq!(outcomes.len(), scripts.len());

    let mut singles = vec![NOISE; elements];
    let mut taken = 0;
    for (script, outcome) in scripts.iter().zip(&outcomes) {
        let single = script.parse(&mut singles[taken..]);
        assert_eq!(*outcome, single);
        taken += single.map_or(0, |tree| tree.len() * ROW);
        seen.add(outcome);
    }
    assert_eq!(table, singles);
    assert!(table[taken..].iter().all(|element| *element == 0));
}

#[test]
fn as_the_single_calls() {
    let scripts = all_asked();
    let mut seen = Seen::default();
    for night in [MOST_JOBS, 40, 1] {
        for scripts in scripts.chunks(night) {
            compare(scripts, pushed(scripts).room(), &mut seen);
        }
    }
    assert!(seen.accepted > 4000 && seen.no_room == 0);
    let met = |number: usize| seen.numbers[number] > 0;
    assert!([1, 2, 4, 5, 6, 7, 8, 9, 10].into_iter().all(met), "{:?}", seen.numbers);
}

#[test]
fn tables_that_run_full() {
    let scripts = all_asked();
    let mut seen = Seen::default();
    for (at, scripts) in scripts.chunks(40).enumerate() {
        let room = pushed(scripts).room();
        for elements in [0, 3, at, room / 20, room / 7 + at, scripts.iter().map(|script| script.elements).sum()] {
            compare(scripts, elements, &mut seen);
        }
    }
    assert!(seen.accepted > 1000 && seen.no_room > 1000);
}

/// `a`, `a==` and `a` in lists that the caller has.
const KINDS: [u8; 4] = [1, 1, 41, 1];
const LENS: [u32; 4] = [2, 3, 2, 5];

fn numbers(night: &Night) -> Vec<u32> {
    let mut table = vec![NOISE; night.room()];
    let outcomes = night.run(&mut table).unwrap();
    outcomes.iter().map(|outcome| outcome.as_ref().map_or_else(Refusal::number, |_| 0)).collect()
}

#[test]
fn places_and_bytes_count_from_the_job() {
    let mut night = Night::over(&KINDS, &LENS);
    night.job(Entry::Exprs(24), 1..3, 256).job(Entry::Exprs(24), 3..4, 256);
    let mut table = vec![NOISE; night.room()];
    let outcomes = night.run(&mut table).unwrap();
    let refusal = outcomes[0].as_ref().unwrap_err();
    assert_eq!((refusal.reason(), refusal.place(), refusal.bytes()), (Reason::Expression, 2, Some(5..5)));
    let tree = outcomes[1].as_ref().unwrap();
    assert_eq!(tree.root().text(), 0..5);
    assert!(tree.root().children().all(|child| child.parent() == Some(tree.root())));
}

#[test]
fn ranges_outside_are_refused_alone() {
    let huge = u32::MAX as usize;
    #[allow(clippy::reversed_empty_ranges)]
    let outside = [0..5, 4..5, 5..5, 2..1, huge..huge + 2, huge + 1..huge + 2, 0..huge + 1, 1..usize::MAX];
    let mut night = Night::over(&KINDS, &LENS);
    for tokens in outside.clone() {
        // Before anything else of the job: its limit is refused too.
        night.job(Entry::Root, 4..4, 256).job(Entry::Root, tokens, 0);
    }
    assert_eq!(numbers(&night), [0, 12].repeat(outside.len()));
    assert!(night.room() <= 3 * outside.len() * room(5));
    let mut table = vec![NOISE; night.room()];
    let outcomes = night.run(&mut table).unwrap();
    let refusal = outcomes[1].as_ref().unwrap_err();
    assert_eq!((refusal.reason(), refusal.place(), refusal.bytes()), (Reason::Job, 0, None));
}

/// Scripts that do not go into the lists have the single call's refusal and move nothing.
#[test]
fn odd_scripts_move_no_other() {
    let long = vec![1; MOST_TOKENS + 1];
    let long_lens = vec![1; MOST_TOKENS + 1];
    let mut night = Night::new();
    night.push(Entry::Root, &[1], &[], 256).push(Entry::Root, &[1], &[1, 1], 0);
    night.push(Entry::Format, &[9], &[7], 256);
    night.push(Entry::Root, &long, &long_lens, 256).push(Entry::Exprs(14), &long, &long_lens, 256);
    night.push(Entry::Format, &[9], &[7], 256);
    assert_eq!(numbers(&night), [2, 1, 0, 3, 1, 0]);
    assert_eq!((night.len(), night.is_empty()), (6, false));
    let mut table = vec![NOISE; night.room()];
    let outcomes = night.run(&mut table).unwrap();
    assert_eq!(outcomes[2], outcomes[5]);
    assert_eq!(outcomes[5].as_ref().unwrap().root().text(), 0..7);
}

/// Borrowed lists are copied where a script is added behind them; a pushed script's tokens can be named again.
#[test]
fn both_ways_of_adding() {
    let mut night = Night::over(&KINDS, &LENS);
    night.job(Entry::Root, 0..1, 256).push(Entry::Format, &[9], &[7], 256).job(Entry::Root, 4..5, 256);
    night.job(Entry::Root, 3..5, 256).job(Entry::Root, 4..6, 256);
    assert_eq!(numbers(&night), [0, 0, 0, 0, 12]);
    assert_eq!(KINDS.len(), 4);
}

#[test]
fn the_whole_is_refused() {
    let refused = |night: &Night| {
        let mut table = [NOISE; 50];
        let refusal = night.run(&mut table).unwrap_err();
        assert_eq!(table, [0; 50]);
        assert_eq!((refusal.place(), refusal.bytes()), (0, None));
        refusal.reason()
    };
    let mut night = Night::over(&KINDS, &LENS[1..]);
    assert_eq!(refused(&night), Reason::Lengths);
    for _ in 0..MOST_JOBS {
        night.job(Entry::Root, 0..0, 256);
    }
    assert_eq!(refused(&night), Reason::Lengths);
    night.job(Entry::Root, 0..0, 256);
    assert_eq!(refused(&night), Reason::Job);
}

#[test]
fn no_jobs_and_the_most() {
    let mut table = [NOISE; MOST_JOBS * ROW];
    let mut night = Night::new();
    assert_eq!((night.run(&mut table), night.room()), (Ok(Vec::new()), 0));
    assert_eq!(table, [0; MOST_JOBS * ROW]);
    for _ in 0..MOST_JOBS {
        night.push(Entry::Root, &[], &[], 256);
    }
    let outcomes = night.run(&mut table).unwrap();
    assert!(outcomes.iter().all(|outcome| outcome.as_ref().is_ok_and(|tree| tree.len() == 1)));
}

/// The bare call leaves what is asked as it is, and every record if it is refused.
#[test]
fn records() {
    let noise = Answer { number: NOISE, place: NOISE, rows: NOISE };
    let job = |entry, first, count| Job { answer: noise, ..Job::new(entry, first, count, 256) };
    let asked = [job(Entry::Exprs(24), 0, 1), job(Entry::Exprs(24), 1, 2), Job { entry: 3, ..job(Entry::Root, 0, 1) }];
    let mut table = [NOISE; 50];
    let mut jobs = asked;
    assert_eq!(batch(&KINDS, &LENS[1..], &mut jobs, &mut table), Answer { number: 2, place: 0, rows: 0 });
    assert_eq!((jobs, table), (asked, [0; 50]));
    let mut many = [asked[0]; MOST_JOBS + 1];
    assert_eq!(batch(&KINDS, &LENS, &mut many, &mut table), Answer { number: 12, place: 0, rows: 0 });
    assert!(many.iter().all(|job| *job == asked[0]));

    assert_eq!(batch(&KINDS, &LENS, &mut jobs, &mut table), Answer { number: 0, place: 0, rows: 4 });
    assert_eq!(jobs.map(|job| Job { answer: noise, ..job }), asked);
    let answers = [(0, 0, 4), (6, 2, 0), (12, 0, 0)].map(|(number, place, rows)| Answer { number, place, rows });
    assert_eq!(jobs.map(|job| job.answer), answers);
}
