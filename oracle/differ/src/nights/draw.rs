//! Nights drawn at random: generated scripts one behind the other, mostly asked for
//! as they lie, and every record, list and table now and then at or past an edge.

use oracle::case::Case;
use oracle::generate::Source;
use oracle::night::{night, Job, MOST_JOBS};
use oracle::rng::Rng;
use oracle::{Entry, MOST_TOKENS, ROW};

use crate::run::seed_of;

use super::both::Night;

/// Nights with many jobs have them over no more scripts than this.
const MOST_SCRIPTS: usize = 24;

/// One night in so many has a list that is too long for one job. They are slow.
const LONG_EVERY: usize = 1000;

const IDENT: u8 = 1;

/// Not separators, but for the last two.
const SEPARATORS: [u32; 10] = [0, 14, 15, 16, 128, 255, 256 + 24, u32::MAX, 24, 26];

/// Not entries, but for the first three; some would be if a part of the number counted.
const ENTRIES: [u32; 9] = [0, 1, 2, 3, 4, 255, 256, 1 << 16, u32::MAX];

const LIMITS: [u32; 9] = [0, 1, 2, 3, 8, 255, 256, 257, u32::MAX];

pub struct Draw {
    rng: Rng,
    source: Source,
}

impl Draw {
    /// An endless source of nights whose scripts have up to so many tokens.
    pub fn new(seed: u64, most: usize) -> Draw {
        Draw {
            rng: Rng::new(seed),
            source: Source::new(seed_of(seed, 1), most),
        }
    }

    pub fn night(&mut self) -> Night {
        let mut night = Night::default();
        let jobs = match self.rng.below(LONG_EVERY) {
            0 => self.long_night(&mut night),
            _ => self.usual_night(&mut night),
        };
        let tokens = night.kinds.len() as u32;
        night.jobs = jobs.iter().map(|job| self.twisted(*job, tokens)).collect();
        if self.rng.percent(3) {
            self.uneven(&mut night);
        }
        night.elements = self.elements(&night);
        night
    }

    /// Scripts, and the jobs for them in order; where there are more jobs than
    /// scripts, some come again.
    fn usual_night(&mut self, night: &mut Night) -> Vec<Job> {
        let count = self.count();
        // Lists without a job have something in them too.
        let scripts = count.clamp(1, MOST_SCRIPTS);
        let mut jobs: Vec<Job> = (0..scripts).map(|_| self.script(night)).collect();
        jobs.truncate(count);
        while jobs.len() < count {
            jobs.push(jobs[self.rng.below(scripts)]);
        }
        jobs
    }

    fn count(&mut self) -> usize {
        match self.rng.below(100) {
            0..=2 => 0,
            3..=93 => self.rng.between(1, 12),
            94..=96 => self.rng.between(13, MOST_JOBS),
            97 => MOST_JOBS - self.rng.below(2),
            _ => MOST_JOBS + self.rng.between(1, 20),
        }
    }

    /// Lays a generated script behind the others; gives its job.
    fn script(&mut self, night: &mut Night) -> Job {
        let (_, mut case) = self.source.next_case();
        // Only the whole night's lists may differ in length.
        case.lens.resize(case.kinds.len(), 1);
        night.lay(&case)
    }

    /// A script about as long as one may be, and jobs for that and a few others.
    fn long_night(&mut self, night: &mut Night) -> Vec<Job> {
        let tokens = MOST_TOKENS + self.rng.below(3);
        let entry = self.rng.pick(&[Entry::Root, Entry::Exprs, Entry::Format]);
        let long = Case::roomy(entry, vec![IDENT; tokens], vec![1; tokens]);
        let mut jobs = vec![self.script(night), night.lay(&long), self.script(night)];
        jobs.rotate_left(self.rng.below(3));
        jobs
    }

    /// The job as it is, or with something else asked.
    fn twisted(&mut self, mut job: Job, tokens: u32) -> Job {
        if self.rng.percent(15) {
            (job.first, job.count) = self.range(&job, tokens);
        }
        if self.rng.percent(5) {
            job.entry = self.rng.pick(&ENTRIES);
        }
        if self.rng.percent(10) {
            job.separator = self.rng.pick(&SEPARATORS);
        }
        if self.rng.percent(5) {
            job.limit = self.rng.pick(&LIMITS);
        }
        job
    }

    /// Another first token and count, inside the lists or not.
    fn range(&mut self, job: &Job, tokens: u32) -> (u32, u32) {
        let mut up_to = |most: u32| self.rng.between(0, most as usize) as u32;
        let first = up_to(tokens);
        let left = tokens - first;
        match up_to(9) {
            0 | 1 => (first, up_to(left)),
            2 => (job.first + up_to(1), job.count + up_to(1)),
            3 => (first, 0),
            4 => (first, left),
            5 => (first, left + 1),
            6 => (tokens, 0),
            7 => (tokens + 1 + up_to(2), 0),
            // Comes back inside in 32 bits.
            8 => (first, up_to(tokens).wrapping_sub(first)),
            _ => (self.rng.pick(&[first, u32::MAX]), u32::MAX),
        }
    }

    /// One of the lists is longer or shorter by one.
    fn uneven(&mut self, night: &mut Night) {
        match self.rng.below(4) {
            0 => drop(night.kinds.pop()),
            1 => drop(night.lens.pop()),
            2 => night.kinds.push(IDENT),
            _ => night.lens.push(1),
        }
    }

    /// A table with room for everything, just enough or nearly so, full somewhere
    /// on the way, or next to none; any odd elements at its end.
    fn elements(&mut self, asked: &Night) -> usize {
        let roomy = asked.roomy();
        let need = || {
            let mut table = vec![0; roomy];
            let mut jobs = asked.jobs.clone();
            let answer = night(&asked.kinds, &asked.lens, &mut jobs, &mut table);
            answer.rows as usize * ROW
        };
        match self.rng.below(10) {
            0..=3 => roomy + self.rng.below(ROW),
            4 | 5 => (need() + self.rng.below(11)).saturating_sub(5),
            6..=8 => self.rng.below(need() + 6),
            _ => self.rng.below(24),
        }
    }
}

#[cfg(test)]
mod tests {
    use super::*;
    use crate::nights::try_night;
    use crate::pair::Pair;
    use crate::tally::Tally;

    /// Every number comes up, but for 2, which is the whole night's alone, and 3,
    /// which is rare; and every way for a whole night to be refused.
    #[test]
    fn everything_happens() {
        let mut draw = Draw::new(1, 40);
        let mut tally = Tally::default();
        for _ in 0..3000 {
            try_night(&draw.night(), &mut Pair::default(), &mut tally);
        }
        let summary = tally.to_string();
        let (nights, jobs) = summary.split_once(" jobs answered").unwrap();
        let came = |counts: &str| {
            let number = |number: &u32| counts.contains(&format!(" {number}:"));
            (0..=12).filter(number).collect::<Vec<u32>>()
        };
        assert_eq!(came(nights), [0, 2, 12], "{summary}");
        let often = [0, 1, 4, 5, 6, 7, 8, 9, 10, 11, 12];
        assert!(often.iter().all(|n| came(jobs).contains(n)), "{summary}");
        assert!(!came(jobs).contains(&2), "{summary}");
    }

    /// A job with more tokens than it may have, and one with as many, come up.
    #[test]
    fn long_ones_happen() {
        let mut draw = Draw::new(3, 10);
        let jobs = (0..30).flat_map(|_| draw.long_night(&mut Night::default()));
        let counts: Vec<u32> = jobs.map(|job| job.count).collect();
        assert!([65_535, 65_536, 65_537].iter().all(|n| counts.contains(n)));
    }

    /// The same seed gives the same nights.
    #[test]
    fn drawn_again() {
        let (mut one, mut other) = (Draw::new(7, 20), Draw::new(7, 20));
        for _ in 0..50 {
            let (one, other) = (one.night(), other.night());
            assert_eq!((one.kinds, one.lens), (other.kinds, other.lens));
            assert_eq!((one.jobs, one.elements), (other.jobs, other.elements));
        }
    }
}
