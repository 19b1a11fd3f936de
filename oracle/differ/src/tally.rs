//! What a batch of cases came to.

use std::fmt;

use oracle::case::Case;
use oracle::Answer;

use crate::pair::{Difference, Judge, Pair, ORACLE};
use crate::Done;

/// How many differences are shown: the shortest lists of those found.
const SHOWN: usize = 3;

/// Longer lines are cut where they are shown: nobody reads on.
const LONGEST: usize = 2000;

/// How often each number was wanted, 0 to 12.
type Numbers = [u64; 13];

/// Counts of cases by the number wanted, and of those that differ.
#[derive(Default)]
pub struct Tally {
    pub cases: u64,
    pub differing: u64,
    by_number: Numbers,
    /// The same of the jobs that were answered, where the cases are nights.
    jobs: Option<Numbers>,
    shown: Vec<Difference>,
}

impl Tally {
    /// Answers a case on both sides and counts it. Gives the oracle's answer.
    pub fn try_case(&mut self, pair: &mut Pair, case: &Case) -> Answer {
        self.try_against(&ORACLE, pair, case)
    }

    /// The same where another than the oracle judges.
    pub fn try_against(&mut self, judge: &Judge, pair: &mut Pair, case: &Case) -> Answer {
        let (answer, difference) = pair.compare_with(judge, case);
        self.count(&answer, difference);
        answer
    }

    /// Counts a case by the answer wanted.
    pub fn count(&mut self, answer: &Answer, difference: Option<Difference>) {
        self.cases += 1;
        self.by_number[answer.number as usize] += 1;
        if let Some(difference) = difference {
            self.differing += 1;
            self.shown.push(difference);
            self.keep_shortest();
        }
    }

    /// Counts the answers wanted of a night's jobs.
    pub fn count_jobs<'a>(&mut self, answers: impl IntoIterator<Item = &'a Answer>) {
        let jobs = self.jobs.get_or_insert_default();
        for answer in answers {
            jobs[answer.number as usize] += 1;
        }
    }

    pub fn add(&mut self, other: Tally) {
        self.cases += other.cases;
        self.differing += other.differing;
        add_up(&mut self.by_number, other.by_number);
        if let Some(jobs) = other.jobs {
            add_up(self.jobs.get_or_insert_default(), jobs);
        }
        self.shown.extend(other.shown);
        self.keep_shortest();
    }

    fn keep_shortest(&mut self) {
        self.shown.sort_by_key(|shown| shown.size);
        self.shown.truncate(SHOWN);
    }

    /// Shows the differences, if there are any: they fail a command.
    pub fn verdict(&self) -> Done {
        if self.differing == 0 {
            return Ok(());
        }
        for shown in &self.shown {
            println!("the two sides differ:\n{}", shown.what.trim_end());
            println!("  {:10} {}", shown.judge, cut(&shown.wanted_line));
            println!("  {:10} {}", "krosstavel", cut(&shown.native_line));
        }
        Err(format!("{} cases differ", self.differing))
    }
}

fn add_up(to: &mut Numbers, from: Numbers) {
    for (to, from) in to.iter_mut().zip(from) {
        *to += from;
    }
}

/// The beginning of a line, and how much was left out.
fn cut(line: &str) -> String {
    match line.get(..LONGEST) {
        Some(begins) if line.len() > LONGEST => {
            format!("{begins} .. ({} characters more)", line.len() - LONGEST)
        }
        _ => line.to_owned(),
    }
}

/// `{:#}` also has the numbers that no job came to, so that one is missed.
impl fmt::Display for Tally {
    fn fmt(&self, f: &mut fmt::Formatter<'_>) -> fmt::Result {
        write!(f, "{} differ; by number", self.differing)?;
        write_numbers(f, &self.by_number, 1)?;
        let Some(jobs) = self.jobs else {
            return Ok(());
        };
        write!(f, "; {} jobs answered, by number", jobs.iter().sum::<u64>())?;
        let least = if f.alternate() { 0 } else { 1 };
        write_numbers(f, &jobs, least)
    }
}

/// Each number that came at least so often.
fn write_numbers(f: &mut fmt::Formatter<'_>, numbers: &Numbers, least: u64) -> fmt::Result {
    let counted = numbers.iter().enumerate();
    for (number, count) in counted.filter(|(_, count)| **count >= least) {
        write!(f, " {number}:{count}")?;
    }
    Ok(())
}
