//! One night on both sides, and what differs.

use std::fmt::Write as _;

use oracle::case::Case;
use oracle::night::{night, Job};
use oracle::{Answer, DEEPEST, ROW};

use crate::native::{self, Batch};
use crate::pair::{answers, noise, other_noise, Difference, Pair, Side, ORACLE};

/// What goes into the call of a night.
#[derive(Debug, Clone, Default)]
pub struct Night {
    pub kinds: Vec<u8>,
    pub lens: Vec<u32>,
    /// What is asked; the answers in these say nothing.
    pub jobs: Vec<Job>,
    /// How many elements the table has.
    pub elements: usize,
}

const COMMA: u32 = 24;

/// A job with the deepest limit and, in `exprs`, the separator `,`.
pub fn job(entry: u32, first: u32, count: u32) -> Job {
    Job {
        entry,
        separator: if entry == 1 { COMMA } else { 0 },
        limit: DEEPEST,
        first,
        count,
        answer: Answer::accepted(0),
    }
}

impl Night {
    /// Lays a case's tokens behind the others, and gives the job for just them.
    pub fn lay(&mut self, case: &Case) -> Job {
        let first = self.kinds.len() as u32;
        self.kinds.extend(&case.kinds);
        self.lens.extend(&case.lens);
        Job {
            separator: case.separator,
            limit: case.limit,
            ..job(case.entry as u32, first, case.kinds.len() as u32)
        }
    }

    /// Elements that were enough for all the jobs, whatever their tokens.
    pub fn roomy(&self) -> usize {
        let ranges = self.jobs.iter().flat_map(|job| job.range(self.kinds.len()));
        ranges.map(|range| (range.len() * 6 + 2) * ROW).sum()
    }

    /// A job whose entry and range are right by a single call of one side.
    pub fn single(&self, side: Side, job: &Job, table: &mut [u32]) -> Answer {
        let entry = job.entry().expect("one of the entries");
        let range = job.range(self.kinds.len());
        let range = range.expect("a range inside the lists");
        let (kinds, lens) = (&self.kinds[range.clone()], &self.lens[range]);
        side(entry, kinds, lens, table, job.separator, job.limit)
    }

    /// The night with what it came to as a line: elements, kinds and lengths, each
    /// with its count, the jobs, the whole answer, the jobs' (`-` if not written).
    fn line(&self, outcome: &Outcome) -> String {
        let mut line = format!("{} {}", self.elements, self.kinds.len());
        let mut put = |number: u32| write!(line, " {number}").unwrap();
        self.kinds.iter().for_each(|kind| put((*kind).into()));
        put(self.lens.len() as u32);
        self.lens.iter().for_each(|len| put(*len));
        put(self.jobs.len() as u32);
        for job in &self.jobs {
            let asked = [job.entry, job.separator, job.limit, job.first, job.count];
            asked.into_iter().for_each(&mut put);
        }
        for answer in [Some(outcome.whole)].iter().chain(&outcome.jobs) {
            match answer {
                Some(answer) => {
                    let Answer {
                        number,
                        place,
                        rows,
                    } = answer;
                    write!(line, " {number} {place} {rows}").unwrap();
                }
                None => line.push_str(" -"),
            }
        }
        line
    }
}

/// What a night came to on one side.
#[derive(Debug, PartialEq, Eq)]
pub struct Outcome {
    pub whole: Answer,
    /// Each record's answer, if it was written.
    pub jobs: Vec<Option<Answer>>,
    /// What else was written into the records or beside them, told.
    harm: String,
}

/// Records on either side of a night's own that must not be touched.
const GUARD: usize = 2;

/// The night's records between guards, noise wherever nothing is asked.
fn records(night: &Night, noise: fn(usize) -> u32) -> Vec<Job> {
    let junk = |at: usize| Answer {
        number: noise(at),
        place: noise(at + 1),
        rows: noise(at + 2),
    };
    let guard = |at: usize| job(noise(at), noise(at + 1), noise(at + 2));
    let mut records: Vec<Job> = (0..GUARD).map(guard).collect();
    records.extend(&night.jobs);
    records.extend((0..GUARD).map(guard));
    for (at, record) in records.iter_mut().enumerate() {
        record.answer = junk(3 * at);
    }
    records
}

impl Outcome {
    /// What came of records that were so before and are so after.
    fn new(whole: Answer, before: &[Job], after: &[Job]) -> Outcome {
        let own = GUARD..before.len() - GUARD;
        let mut harm = String::new();
        let mut jobs = Vec::with_capacity(own.len());
        for (at, (before, after)) in before[own.clone()].iter().zip(&after[own]).enumerate() {
            let answer = after.answer;
            let asked = Job {
                answer: before.answer,
                ..*after
            };
            if asked != *before {
                writeln!(harm, "  job {at}: what was asked is overwritten").unwrap();
            }
            jobs.push((answer != before.answer).then_some(answer));
        }
        let beside = |records: &[Job]| {
            let (begin, end) = (&records[..GUARD], &records[records.len() - GUARD..]);
            [begin, end].concat()
        };
        if beside(before) != beside(after) {
            harm += "  written outside the records\n";
        }
        Outcome { whole, jobs, harm }
    }

    /// Each answer that differs, and what the other side has done besides.
    fn what_differs(&self, got: &Outcome) -> String {
        let mut what = answers("", ORACLE.name, &self.whole, &got.whole);
        for (at, pair) in self.jobs.iter().zip(&got.jobs).enumerate() {
            what += &match pair {
                (Some(want), Some(got)) => answers(&format!("job {at}, "), ORACLE.name, want, got),
                (Some(_), None) => format!("  job {at}: left as it was\n"),
                (None, Some(_)) => format!("  job {at}: to be left as it was\n"),
                (None, None) => String::new(),
            };
        }
        what + &got.harm
    }
}

/// Puts a night to both sides. Gives the oracle's outcome, and what differs.
pub fn compare(night: &Night, pair: &mut Pair) -> (Outcome, Option<Difference>) {
    compare_with(native::batch, night, pair)
}

fn compare_with(batch: Batch, night: &Night, pair: &mut Pair) -> (Outcome, Option<Difference>) {
    let want = ask_oracle(night, pair.fresh_wanted(night.elements));
    let got = ask_native(batch, night, pair.fresh_native(night.elements));
    let same = want == got && pair.tables_agree();
    let difference = (!same).then(|| Difference {
        size: night.kinds.len() + night.jobs.len(),
        what: want.what_differs(&got) + &pair.what_of_tables(ORACLE.name),
        judge: ORACLE.name,
        wanted_line: night.line(&want),
        native_line: night.line(&got),
    });
    (want, difference)
}

fn ask_oracle(asked: &Night, table: &mut [u32]) -> Outcome {
    let before = records(asked, other_noise);
    let mut after = before.clone();
    let jobs = &mut after[GUARD..GUARD + asked.jobs.len()];
    let whole = night(&asked.kinds, &asked.lens, jobs, table);
    Outcome::new(whole, &before, &after)
}

fn ask_native(batch: Batch, asked: &Night, table: &mut [u32]) -> Outcome {
    let before = records(asked, noise);
    let mut after: Vec<native::Record> = before.iter().map(native::record).collect();
    let jobs = &mut after[GUARD..GUARD + asked.jobs.len()];
    let whole = batch(&asked.kinds, &asked.lens, jobs, table);
    let after: Vec<Job> = after.iter().map(native::job).collect();
    Outcome::new(whole, &before, &after)
}

#[cfg(test)]
mod tests {
    use super::*;

    /// Three jobs, the second refused.
    fn three() -> Night {
        let mut night = Night::default();
        let (kinds, lens) = oracle::text::tokens("1==2==3");
        let all = night.lay(&Case::roomy(oracle::Entry::Exprs, kinds, lens));
        night.jobs = vec![job(1, 0, 1), all, job(1, 2, 3)];
        night.elements = night.roomy();
        night
    }

    fn told(batch: Batch, night: &Night) -> String {
        let (_, difference) = compare_with(batch, night, &mut Pair::default());
        difference.map_or_else(String::new, |difference| difference.what)
    }

    #[test]
    fn the_sides_agree() {
        assert_eq!(told(native::batch, &three()), "");
    }

    #[test]
    fn a_wrong_answer_is_told() {
        let wrong: Batch = |kinds, lens, jobs, table| {
            let answer = native::batch(kinds, lens, jobs, table);
            jobs[1].answer.place = 0;
            Answer { rows: 0, ..answer }
        };
        let what = told(wrong, &three());
        assert!(what.contains("job 1, place: oracle 2, krosstavel 0"));
        assert!(what.contains("  rows: oracle 13, krosstavel 0"));
    }

    #[test]
    fn records_left_or_overwritten_are_told() {
        let nothing: Batch = |_, _, _, _| Answer::refused(12, 0);
        assert!(told(nothing, &three()).contains("job 2: left as it was"));
        let asked: Batch = |kinds, lens, jobs, table| {
            let answer = native::batch(kinds, lens, jobs, table);
            jobs[2].limit = 1;
            answer
        };
        assert!(told(asked, &three()).contains("job 2: what was asked is overwritten"));

        let mut many = three();
        many.jobs.resize(401, job(1, 0, 1));
        let answered: Batch = |kinds, lens, jobs, table| {
            let answer = native::batch(kinds, lens, jobs, table);
            jobs[400].answer.rows = 0;
            answer
        };
        assert_eq!(told(native::batch, &many), "");
        assert!(told(answered, &many).contains("job 400: to be left as it was"));
    }

    #[test]
    fn a_write_beside_the_records_is_seen() {
        let before = records(&three(), noise);
        for at in [0, 1, 5, 6] {
            let mut after = before.clone();
            after[at].answer.place ^= 1;
            let outcome = Outcome::new(Answer::accepted(0), &before, &after);
            assert!(outcome.harm.contains("outside the records"), "{at}");
        }
        let same = Outcome::new(Answer::accepted(0), &before, &before);
        assert_eq!((same.jobs, same.harm), (vec![None; 3], String::new()));
    }

    #[test]
    fn a_table_not_cleared_is_told() {
        let stale: Batch = |kinds, lens, jobs, table| {
            let answer = native::batch(kinds, lens, jobs, table);
            *table.last_mut().unwrap() = 5;
            answer
        };
        let last = three().elements - 1;
        assert!(told(stale, &three()).contains(&format!("1 elements, the first {last} ")));
    }
}
