//! `differ bench`: both sides' time on the same lists, in the same run. It
//! measures; it does not judge.

use std::time::{Duration, Instant};

use oracle::case::Case;
use oracle::{coverage, Answer, Entry, KEEPS_NEXT, MOST_TOKENS};

use crate::lists::LISTS;
use crate::native;
use crate::nights;
use crate::options::Options;
use crate::pair::{ask, Pair};
use crate::Done;

/// Rounds of which the best counts.
const ROUNDS: u64 = 25;

pub fn command(args: &[&str]) -> Done {
    if coverage::COUNTED {
        return Err(
            "the oracle counts its rules here: build with `cargo build --release -p differ`".into(),
        );
    }
    let options = Options::read(args, &["--rounds"])?;
    let rounds = options.get("--rounds").unwrap_or(ROUNDS).max(1);

    print_machine();
    println!("{MOST_TOKENS} tokens, tables cleared beforehand, best of {rounds}, in milliseconds; growth: from half as many tokens");
    println!(
        "{:26}{:>9}{:>9}{:>11}{:>8}{:>10}{:>11}",
        "list", "rows", "oracle", "krosstavel", "ratio", "growth", "of oracle"
    );
    let mut ratios = Vec::new();
    for list in &LISTS {
        let measured = Measured::of(&list.case(MOST_TOKENS), rounds)?;
        let half = Measured::of(&list.case(MOST_TOKENS / 2), rounds)?;
        print_line(list.name, &measured, &half);
        ratios.push(measured.ratio());
    }
    let (full, half) = (cleared(MOST_TOKENS), cleared(MOST_TOKENS / 2));
    let measured = Measured::of(&full, rounds)?;
    print_line(
        "refused: clearing alone",
        &measured,
        &Measured::of(&half, rounds)?,
    );
    ratios.push(measured.ratio());
    print_sum(&ratios);
    nights::bench::print(rounds)
}

/// What it runs on, and how both sides were built.
fn print_machine() {
    let about = std::fs::read_to_string("/proc/cpuinfo").unwrap_or_default();
    let model = about.lines().find_map(|line| {
        let (what, value) = line.split_once(':')?;
        ["model name", "CPU part"]
            .contains(&what.trim())
            .then_some(value.trim())
    });
    println!(
        "machine: {}, {}",
        std::env::consts::ARCH,
        model.unwrap_or("of a kind that it does not tell")
    );
    let baseline = if KEEPS_NEXT {
        "a parser that keeps what is next"
    } else {
        "the scope's tape word by word"
    };
    println!("oracle: {baseline}; cargo's release profile, one codegen unit");
    println!("krosstavel: {}", krosstavel::BUILD);
}

fn print_sum(ratios: &[f64]) {
    let up_to = |most: f64| ratios.iter().filter(|ratio| **ratio <= most).count();
    println!(
        "the largest ratio is {:.2}; of {}, {} are at most 1.00 and {} at most 0.80",
        ratios.iter().copied().fold(0.0, f64::max),
        ratios.len(),
        up_to(1.004),
        up_to(0.804)
    );
}

/// Refused at once, so that only the clearing of a roomy table is left.
fn cleared(tokens: usize) -> Case {
    let mut case = Case::roomy(Entry::Root, vec![1; tokens], vec![1; tokens]);
    case.limit = 0;
    case
}

/// The best times of both sides on one list.
struct Measured {
    rows: u32,
    oracle: Duration,
    native: Duration,
}

impl Measured {
    fn of(case: &Case, rounds: u64) -> Result<Measured, String> {
        let (answer, difference) = Pair::default().compare(case);
        if let Some(difference) = difference {
            return Err(format!("the two sides differ:\n{}", difference.what));
        }
        let mut by_oracle = |table: &mut [u32]| ask(oracle::parse, case, table);
        let mut by_native = |table: &mut [u32]| ask(native::parse, case, table);
        let calls: [Call; 2] = [&mut by_oracle, &mut by_native];
        let [oracle, native] = best_of(rounds, case.elements, calls);
        Ok(Measured {
            rows: answer.rows,
            oracle,
            native,
        })
    }

    fn ratio(&self) -> f64 {
        quotient(self.native, self.oracle)
    }
}

/// What is timed: a call on a table.
pub type Call<'a> = &'a mut dyn FnMut(&mut [u32]) -> Answer;

/// The best time of each call into a table of so many elements. They take turns, so
/// that whatever slows the machine hits all.
pub fn best_of<const N: usize>(
    rounds: u64,
    elements: usize,
    mut calls: [Call; N],
) -> [Duration; N] {
    let mut table = vec![0; elements];
    let mut best = [Duration::MAX; N];
    for _ in 0..rounds {
        for (call, best) in calls.iter_mut().zip(&mut best) {
            *best = timed(call, &mut table).min(*best);
        }
    }
    best
}

/// One call into a cleared table; the clearing is not timed.
fn timed(call: Call, table: &mut [u32]) -> Duration {
    table.fill(0);
    let from = Instant::now();
    let answer = call(table);
    let took = from.elapsed();
    std::hint::black_box(answer);
    took
}

pub fn milliseconds(time: Duration) -> f64 {
    time.as_secs_f64() * 1e3
}

pub fn quotient(a: Duration, b: Duration) -> f64 {
    a.as_secs_f64() / b.as_secs_f64().max(1e-9)
}

fn print_line(name: &str, full: &Measured, half: &Measured) {
    println!(
        "{name:26}{:9}{:9.3}{:11.3}{:8.2}{:10.2}{:11.2}",
        full.rows,
        milliseconds(full.oracle),
        milliseconds(full.native),
        full.ratio(),
        quotient(full.native, half.native),
        quotient(full.oracle, half.oracle)
    );
}
