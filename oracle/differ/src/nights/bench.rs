//! A night's time: beside the oracle's night, and beside the same parses by as many
//! single calls. A night's call may cost little more than those.

use std::time::Duration;

use oracle::case::Case;
use oracle::night::{night, MOST_JOBS};
use oracle::{text, Answer, Entry, DEEPEST};

use crate::bench::{best_of, milliseconds, quotient, Call};
use crate::lists::{guards, programs, Tokens};
use crate::native;
use crate::pair::Pair;
use crate::Done;

use super::both::{compare, Night};

/// Tokens of each job.
const TOKENS: usize = 160;

/// A night by its name: the script of each job, the depth limit, and the number that
/// every job is answered with.
struct Measure {
    name: &'static str,
    entry: Entry,
    script: fn(usize) -> Tokens,
    limit: u32,
    number: u32,
}

const NIGHTS: [Measure; 4] = [
    Measure {
        name: "programs",
        entry: Entry::Root,
        script: program,
        limit: DEEPEST,
        number: 0,
    },
    Measure {
        name: "guards",
        entry: Entry::Exprs,
        script: |_| guards(TOKENS),
        limit: DEEPEST,
        number: 0,
    },
    Measure {
        name: "guards, all refused late",
        entry: Entry::Exprs,
        script: |_| clashing(),
        limit: DEEPEST,
        number: 7,
    },
    Measure {
        name: "all refused at once",
        entry: Entry::Root,
        script: program,
        limit: 0,
        number: 1,
    },
];

/// Each job has a program of its own.
fn program(job: usize) -> Tokens {
    programs(job as u64, TOKENS)
}

/// Guards, the last of which has a clash at its end.
fn clashing() -> Tokens {
    let (last, last_lens) = text::tokens("a==b==c");
    let (mut kinds, mut lens) = guards(TOKENS - last.len());
    kinds.extend(last);
    lens.extend(last_lens);
    (kinds, lens)
}

/// Measures every night and prints a line for each.
pub fn print(rounds: u64) -> Done {
    println!("nights of {MOST_JOBS} jobs of {TOKENS} tokens, one table with room for all; single: the same parses by a call each, on an equal part of that table");
    println!(
        "{:26}{:>9}{:>9}{:>11}{:>8}{:>10}{:>11}",
        "night", "rows", "oracle", "krosstavel", "ratio", "single", "of single"
    );
    for measure in &NIGHTS {
        measure.print(rounds)?;
    }
    Ok(())
}

impl Measure {
    fn print(&self, rounds: u64) -> Done {
        let night = self.night();
        let rows = self.rows(&night)?;
        let [oracle, native, single] = times(&night, rounds);
        println!(
            "{:26}{rows:9}{:9.3}{:11.3}{:8.2}{:10.3}{:11.2}",
            self.name,
            milliseconds(oracle),
            milliseconds(native),
            quotient(native, oracle),
            milliseconds(single),
            quotient(native, single)
        );
        Ok(())
    }

    fn night(&self) -> Night {
        let mut night = Night::default();
        for at in 0..MOST_JOBS {
            let (kinds, lens) = (self.script)(at);
            let case = Case {
                limit: self.limit,
                ..Case::roomy(self.entry, kinds, lens)
            };
            let job = night.lay(&case);
            night.jobs.push(job);
        }
        night.elements = night.roomy();
        night
    }

    /// All rows, if both sides agree and every job comes to what it is there for.
    fn rows(&self, night: &Night) -> Result<u32, String> {
        let (want, difference) = compare(night, &mut Pair::default());
        if let Some(difference) = difference {
            return Err(format!("the two sides differ:\n{}", difference.what));
        }
        let mut answers = want.jobs.iter().flatten();
        match answers.find(|answer| answer.number != self.number) {
            Some(other) => Err(format!("{}: a job has {other:?}", self.name)),
            None => Ok(want.whole.rows),
        }
    }
}

/// The best times of the oracle's night, the proved one and the single calls.
fn times(asked: &Night, rounds: u64) -> [Duration; 3] {
    let Night { kinds, lens, .. } = asked;
    let mut jobs = asked.jobs.clone();
    let mut records: Vec<_> = jobs.iter().map(native::record).collect();
    let mut by_oracle = |table: &mut [u32]| night(kinds, lens, &mut jobs, table);
    let mut by_native = |table: &mut [u32]| native::batch(kinds, lens, &mut records, table);
    let mut singly = |table: &mut [u32]| singles(asked, table);
    let calls: [Call; 3] = [&mut by_oracle, &mut by_native, &mut singly];
    best_of(rounds, asked.elements, calls)
}

/// The jobs by a single call each. Every call clears what it leaves of its part, so
/// that all of them together clear as much as the night has to.
fn singles(asked: &Night, table: &mut [u32]) -> Answer {
    let room = table.len() / asked.jobs.len();
    let parts = table.chunks_exact_mut(room);
    let answers = asked.jobs.iter().zip(parts).map(|(job, part)| {
        let answer = asked.single(native::parse, job, part);
        answer.rows as usize
    });
    Answer::accepted(answers.sum())
}
