//! A night's worth of scripts at once: jobs over shared lists and one table.

use std::ops::Range;

use crate::{parse_rows, Answer, Entry, ROW};

/// The most jobs of a night.
pub const MOST_JOBS: usize = 400;

/// A job's record: what is asked, and the answer, which [`night`] writes.
#[derive(Debug, Clone, Copy, PartialEq, Eq)]
pub struct Job {
    /// 0 root, 1 exprs, 2 format.
    pub entry: u32,
    pub separator: u32,
    pub limit: u32,
    /// The first token, counted in the shared lists.
    pub first: u32,
    pub count: u32,
    pub answer: Answer,
}

/// Parses each job's range into what is left of the table, in order: the rows of
/// the accepted ones stand one after another, then zeros.
pub fn night(kinds: &[u8], lens: &[u32], jobs: &mut [Job], table: &mut [u32]) -> Answer {
    let answer = run(kinds, lens, jobs, table);
    table[answer.rows as usize * ROW..].fill(0);
    answer
}

/// The night without the zeros.
fn run(kinds: &[u8], lens: &[u32], jobs: &mut [Job], table: &mut [u32]) -> Answer {
    if jobs.len() > MOST_JOBS {
        return Answer::refused(12, 0);
    }
    if kinds.len() != lens.len() {
        return Answer::refused(2, 0);
    }
    let mut rows = 0;
    for job in jobs {
        job.answer = job.parse(kinds, lens, &mut table[rows * ROW..]);
        rows += job.answer.rows as usize;
    }
    Answer::accepted(rows)
}

impl Job {
    fn parse(&self, kinds: &[u8], lens: &[u32], free: &mut [u32]) -> Answer {
        let (Some(entry), Some(range)) = (self.entry(), self.range(kinds.len())) else {
            return Answer::refused(12, 0);
        };
        let (kinds, lens) = (&kinds[range.clone()], &lens[range]);
        parse_rows(entry, kinds, lens, free, self.separator, self.limit)
    }

    /// The entry, if it is one of the three.
    pub fn entry(&self) -> Option<Entry> {
        match self.entry {
            0 => Some(Entry::Root),
            1 => Some(Entry::Exprs),
            2 => Some(Entry::Format),
            _ => None,
        }
    }

    /// The range in lists of so many tokens, if it lies inside.
    pub fn range(&self, tokens: usize) -> Option<Range<usize>> {
        let end = u64::from(self.first) + u64::from(self.count);
        (end <= tokens as u64).then_some(self.first as usize..end as usize)
    }
}

#[cfg(test)]
mod tests {
    use super::*;
    use crate::{parse, text};

    /// What nothing answers.
    const JUNK: Answer = Answer {
        number: 77,
        place: 78,
        rows: 79,
    };

    const COMMA: u32 = K![,].token_number() as u32;

    fn exprs(first: u32, count: u32) -> Job {
        Job {
            entry: 1,
            separator: COMMA,
            limit: 256,
            first,
            count,
            answer: JUNK,
        }
    }

    /// The night's answer, each job's, and the table of so many elements.
    fn run(text: &str, jobs: &[Job], elements: usize) -> (Answer, Vec<Answer>, Vec<u32>) {
        let (kinds, lens) = text::tokens(text);
        let (mut jobs, mut table) = (jobs.to_vec(), vec![7; elements]);
        let answer = night(&kinds, &lens, &mut jobs, &mut table);
        let answers = jobs.iter().map(|job| job.answer).collect();
        (answer, answers, table)
    }

    fn answers(text: &str, jobs: &[Job]) -> Vec<Answer> {
        run(text, jobs, 400).1
    }

    #[test]
    fn no_jobs() {
        let none = (Answer::accepted(0), Vec::new(), vec![0; 9]);
        assert_eq!(run("a + b", &[], 9), none);
        assert_eq!(run("", &[], 9), none);
    }

    /// The rows stand one after another, a refused job's are gone, and starts and
    /// places count from the job's own first token.
    #[test]
    fn rows_one_after_another() {
        // Tokens 0 to 6: a==b==c;1
        let jobs = [exprs(2, 1), exprs(0, 5), exprs(6, 1), exprs(0, 3)];
        let (answer, answers, table) = run("a==b==c;1", &jobs, 83);
        assert_eq!(answer, Answer::accepted(4 + 4 + 9));
        let want = [
            Answer::accepted(4),
            Answer::refused(7, 2),
            Answer::accepted(4),
            Answer::accepted(9),
        ];
        assert_eq!(answers, want);
        #[rustfmt::skip]
        assert_eq!(table[..36], [
            1, 0, 0, 1, 163, 1, 0, 1, 129, 2, 0, 1, 128, 3, 0, 1,
            9, 0, 0, 1, 165, 1, 0, 1, 129, 2, 0, 1, 128, 3, 0, 1,
            1, 0, 0, 1,
        ]);
        assert_eq!(table[68..], [0; 15]);
    }

    #[test]
    fn each_job_is_the_single_call_on_what_is_free() {
        let text = "a + b, c(1)?.d";
        let (kinds, lens) = text::tokens(text);
        let jobs = [exprs(0, 5), exprs(0, 6), exprs(7, 7), exprs(0, 14)];
        for elements in 0..300 {
            let (answer, answers, table) = run(text, &jobs, elements);
            let mut want = vec![7; elements];
            let mut taken = 0;
            for (job, answer) in jobs.iter().zip(answers) {
                let range = job.range(kinds.len()).unwrap();
                let (kinds, lens) = (&kinds[range.clone()], &lens[range]);
                let free = &mut want[taken * ROW..];
                let single = parse(Entry::Exprs, kinds, lens, free, COMMA, 256);
                assert_eq!(answer, single, "{elements} elements");
                taken += single.rows as usize;
            }
            assert_eq!((answer, table), (Answer::accepted(taken), want));
        }
    }

    #[test]
    fn ranges() {
        let inside = [(0, 0), (0, 3), (2, 1), (3, 0)];
        for (first, count) in inside {
            assert_eq!(answers("1,1", &[exprs(first, count)])[0].number, 0);
        }
        const MAX: u32 = u32::MAX;
        let outside = [(0, 4), (3, 1), (4, 0), (MAX, 0), (1, MAX), (MAX, 3)];
        for (first, count) in outside {
            let got = answers("1,1", &[exprs(first, count)]);
            assert_eq!(got, [Answer::refused(12, 0)], "{first} {count}");
        }
    }

    #[test]
    fn entries() {
        let of = |entry| Job {
            entry,
            ..exprs(0, 1)
        };
        let got = answers("1", &[of(0), of(1), of(2), of(3), of(256), of(u32::MAX)]);
        assert_eq!(got[..3], [4, 4, 4].map(Answer::accepted));
        assert_eq!(got[3..], [Answer::refused(12, 0); 3]);
    }

    /// 12 comes before 1, and 1 only where the entry has a separator.
    #[test]
    fn separators_and_limits() {
        let no_separator = Job {
            separator: 0,
            ..exprs(0, 1)
        };
        let root = Job {
            entry: 0,
            ..no_separator
        };
        let no_limit = Job {
            limit: 0,
            ..exprs(0, 1)
        };
        let outside = Job {
            first: 2,
            ..no_limit
        };
        let want = [
            Answer::refused(1, 0),
            Answer::accepted(4),
            Answer::refused(1, 0),
            Answer::refused(12, 0),
        ];
        assert_eq!(answers("1", &[no_separator, root, no_limit, outside]), want);
    }

    /// Each kind of job once. The definition computes the same night (`KnownNight.antt` in `crates/laws`).
    #[test]
    fn the_known_night() {
        let with_limit = |limit, job| Job { limit, ..job };
        let of = |entry, job| Job { entry, ..job };
        let jobs = [
            exprs(2, 5),
            with_limit(0, of(3, exprs(0, 1))),
            exprs(0, 1),
            of(0, exprs(7, 1)),
            with_limit(1, exprs(2, 1)),
            of(0, exprs(7, 0)),
            of(2, exprs(0, 1)),
        ];
        let want = [
            Answer::refused(7, 2),
            Answer::refused(12, 0),
            Answer::accepted(4),
            Answer::refused(12, 0),
            Answer::refused(10, 0),
            Answer::accepted(1),
            Answer::refused(11, 1),
        ];
        let (answer, answers, table) = run("1,a==b==c", &jobs, 30);
        assert_eq!((answer, answers), (Answer::accepted(5), want.to_vec()));
        #[rustfmt::skip]
        assert_eq!(table[..20], [
            9, 0, 0, 1, 165, 1, 0, 1, 129, 2, 0, 1, 128, 3, 0, 1,
            128, 0, 0, 0,
        ]);
        assert_eq!(table[20..], [0; 10]);
    }

    /// Refused as a whole: the table is zeros, and no record changes.
    #[test]
    fn the_whole_night_refused() {
        let refused = |kinds: &[u8], lens: &[u32], jobs: usize| {
            let mut jobs = vec![exprs(0, 1); jobs];
            let mut table = [7; 9];
            let answer = night(kinds, lens, &mut jobs, &mut table);
            assert!(jobs.iter().all(|job| *job == exprs(0, 1)));
            assert_eq!((answer.place, answer.rows, table), (0, 0, [0; 9]));
            answer.number
        };
        assert_eq!(refused(&[1], &[1], 401), 12);
        assert_eq!(refused(&[1], &[], 401), 12);
        assert_eq!(refused(&[1], &[], 400), 2);
        assert_eq!(refused(&[], &[1], 0), 2);
    }
}
