//! A night's worth of scripts at once: jobs over shared lists and one table.

use std::borrow::Cow;
use std::ops::Range;

use crate::{calls, room, Answer, Entry, Reason, Refusal, Tree, MOST_TOKENS, ROW};

/// The most jobs that a call takes.
pub const MOST_JOBS: usize = 400;

/// A job's record, as the archive lays it out: what is asked, and the answer, which [`batch`] writes.
#[repr(C)]
#[derive(Debug, Clone, Copy, PartialEq, Eq)]
pub struct Job {
    /// 0 root, 1 exprs, 2 format.
    pub entry: u32,
    /// The separator of exprs; not looked at for the others.
    pub separator: u32,
    /// The depth limit.
    pub limit: u32,
    /// The first token, counted in the shared lists.
    pub first: u32,
    /// How many tokens.
    pub count: u32,
    /// What the job came to; its place counts from the job's first token.
    pub answer: Answer,
}

/// A record's number for none of the three entries.
const NO_ENTRY: u32 = u32::MAX;

impl Job {
    /// The record that asks for so many tokens from the first on. Its answer is zeros.
    pub const fn new(entry: Entry, first: u32, count: u32, limit: u32) -> Job {
        let (entry, separator) = match entry {
            Entry::Root => (0, 0),
            Entry::Exprs(separator) => (1, separator),
            Entry::Format => (2, 0),
        };
        Job { entry, separator, limit, first, count, answer: Answer { number: 0, place: 0, rows: 0 } }
    }

    /// A record for a job whose refusal is known before the call: it keeps its place in the order and takes no rows.
    const fn refused(answer: Answer) -> Job {
        Job { entry: NO_ENTRY, separator: 0, limit: 0, first: 0, count: 0, answer }
    }
}

/// The bare call, for whoever reads records and table alone: nothing is asked of the lists, the records or the table. [`Night`] is the same without
/// offsets.
///
/// Each job's answer goes into its record, and its rows stand in the table right behind those of the accepted jobs before it. What comes back is the
/// answer to the whole call: refused with 12 if there are more than [`MOST_JOBS`] jobs, then with 2 if the lists differ in length, and no record is
/// changed then; otherwise all rows that were taken, whatever the jobs came to.
///
/// ```
/// use krosstavel::{batch, Answer, Entry, Job, Kind};
/// let kinds = [Kind::Number, Kind::Equal, Kind::Number].map(Kind::number);
/// let comma = Entry::Exprs(Kind::Comma.into());
/// let mut jobs = [Job::new(comma, 0, 1, 256), Job::new(comma, 1, 1, 256), Job::new(comma, 2, 2, 256), Job::new(comma, 2, 1, 256)];
/// let mut table = [7; 40];
/// let answer = batch(&kinds, &[1, 1, 1], &mut jobs, &mut table);
/// assert_eq!(answer, Answer { number: 0, place: 0, rows: 8 });
/// assert_eq!(jobs.map(|job| (job.answer.number, job.answer.rows)), [(0, 4), (6, 0), (12, 0), (0, 4)]);
/// // The last job's rows are the first one's again, start bytes too: they count from its own first token.
/// assert_eq!(table[16..32], table[..16]);
/// assert_eq!(table[32..], [0; 8]);
/// ```
pub fn batch(kinds: &[u8], lens: &[u32], jobs: &mut [Job], table: &mut [u32]) -> Answer {
    calls::batch(kinds, lens, jobs, table)
}

/// A night's worth of scripts: jobs that one call parses, in order, into one table.
///
/// [`push`](Night::push) adds a script, whose tokens are copied behind those of the scripts before. Where all tokens stand in two lists already,
/// [`over`](Night::over) borrows these, and [`job`](Night::job) adds a job on a range of them. [`run`](Night::run) hands back each job's outcome, in
/// their order: that of the single call, [`Entry::parse`], on the job's tokens alone and on the part of the table that the jobs before it left. A tree
/// is a view of the job's own rows, and its bytes, like a refusal's place and bytes, count from the job's own first token. A refused job takes no rows
/// and changes nothing for the others.
///
/// ```
/// use krosstavel::{Entry, Kind, Night, Reason};
///
/// let comma = Entry::Exprs(Kind::Comma.into());
/// let mut night = Night::new();
/// // a + b, then a==b==c, then f()
/// night.push(comma, &[Kind::Ident, Kind::Plus, Kind::Ident].map(Kind::number), &[1, 1, 1], 256);
/// night.push(comma, &[Kind::Ident, Kind::EqEq, Kind::Ident, Kind::EqEq, Kind::Ident].map(Kind::number), &[1, 2, 1, 2, 1], 256);
/// night.push(Entry::Root, &[Kind::Ident, Kind::OpenParen, Kind::CloseParen].map(Kind::number), &[1, 1, 1], 256);
///
/// let mut table = vec![0; night.room()];
/// let outcomes = night.run(&mut table)?;
/// assert_eq!(format!("{:?}", outcomes[0]), "Ok(Root(Expr(ExprBinary(Path(ident) ExprOperator(+) Path(ident)))))");
/// let refusal = outcomes[1].as_ref().unwrap_err();
/// assert_eq!((refusal.reason(), refusal.place(), refusal.bytes()), (Reason::Grouping, 2, Some(3..4)));
/// let call = outcomes[2].as_ref().unwrap();
/// assert_eq!(format!("{call:?}"), "Root(Expr(ExprChain(Path(ident) ExprCall('(' ')'))))");
/// assert_eq!(call.root().text(), 0..3);
/// # Ok::<(), krosstavel::Refusal>(())
/// ```
#[derive(Debug, Clone, Default)]
pub struct Night<'l> {
    kinds: Cow<'l, [u8]>,
    lens: Cow<'l, [u32]>,
    jobs: Vec<Job>,
}

impl<'l> Night<'l> {
    /// A night without a job, with lists of its own.
    pub fn new() -> Night<'l> {
        Night::default()
    }

    /// A night without a job over tokens that the caller has, which are not copied. Lists of different lengths are refused when it is
    /// [run](Night::run).
    ///
    /// ```
    /// use krosstavel::{Entry, Kind, Night, Reason};
    /// // a;b  as a script, each side of the semicolon as a format, and a range that reaches too far
    /// let kinds = [Kind::Ident, Kind::Semicolon, Kind::Ident].map(Kind::number);
    /// let mut night = Night::over(&kinds, &[1, 1, 1]);
    /// night.job(Entry::Root, 0..3, 256).job(Entry::Format, 0..1, 256).job(Entry::Format, 2..3, 256).job(Entry::Root, 2..4, 256);
    ///
    /// let mut table = vec![0; night.room()];
    /// let outcomes = night.run(&mut table)?;
    /// assert_eq!(format!("{:?}", outcomes[0]), "Ok(Root(Expr(Path(ident)) ; Expr(Path(ident))))");
    /// assert_eq!(outcomes[1], outcomes[2]);
    /// assert_eq!(outcomes[3].as_ref().unwrap_err().reason(), Reason::Job);
    /// # Ok::<(), krosstavel::Refusal>(())
    /// ```
    pub fn over(kinds: &'l [u8], lens: &'l [u32]) -> Night<'l> {
        Night { kinds: kinds.into(), lens: lens.into(), jobs: Vec::new() }
    }

    /// Adds a script. (To a night over borrowed lists too: they are copied then, once.)
    ///
    /// Kinds and lengths that differ in length cannot go into the shared lists, where they would move the tokens of all scripts behind them. They are
    /// left out, and the outcome of this job is the single call's refusal: [`Reason::Lengths`], or [`Reason::Setting`], which is tried before it. It is
    /// an outcome and no error here, so that one bad script neither stops the night nor changes which outcome is whose. A script of more than
    /// [`MOST_TOKENS`] tokens is left out in the same way, with [`Reason::Count`]. So the lists of [`MOST_JOBS`] scripts have at most 26,214,000 tokens
    /// (131 MB), far from what a record cannot count.
    ///
    /// ```
    /// use krosstavel::{Entry, Night, Reason};
    /// let mut night = Night::new();
    /// night.push(Entry::Root, &[1, 1], &[1], 256).push(Entry::Root, &[9], &[3], 256);
    /// let mut table = vec![0; night.room()];
    /// let outcomes = night.run(&mut table)?;
    /// assert_eq!(outcomes[0].as_ref().unwrap_err().reason(), Reason::Lengths);
    /// assert_eq!(outcomes[1].as_ref().unwrap().root().text(), 0..3);
    /// # Ok::<(), krosstavel::Refusal>(())
    /// ```
    pub fn push(&mut self, entry: Entry, kinds: &[u8], lens: &[u32], limit: u32) -> &mut Night<'l> {
        if kinds.len() != lens.len() || kinds.len() > MOST_TOKENS {
            // The single call refuses them before it looks at the table.
            self.jobs.push(Job::refused(entry.answer(kinds, lens, &mut [], limit)));
            return self;
        }
        let first = self.kinds.len();
        self.kinds.to_mut().extend_from_slice(kinds);
        self.lens.to_mut().extend_from_slice(lens);
        self.job(entry, first..first + kinds.len(), limit)
    }

    /// Adds a job on tokens of the lists, those of scripts that were pushed included. Ranges may overlap and need not cover the lists.
    ///
    /// A range that is not inside the lists when the night is run, or that ends before it begins, is refused with [`Reason::Job`], that job alone. A
    /// record counts with 32 bits: a range that begins behind token 4,294,967,295, or has more tokens than that, is refused so even where the lists
    /// are that long.
    pub fn job(&mut self, entry: Entry, tokens: Range<usize>, limit: u32) -> &mut Night<'l> {
        let first = u32::try_from(tokens.start).ok();
        let count = tokens.end.checked_sub(tokens.start).and_then(|count| u32::try_from(count).ok());
        self.jobs.push(match (first, count) {
            (Some(first), Some(count)) => Job::new(entry, first, count, limit),
            _ => Job::refused(Answer { number: Reason::Job.number(), place: 0, rows: 0 }),
        });
        self
    }

    /// How many jobs there are. More than [`MOST_JOBS`] are refused when the night is [run](Night::run).
    pub fn len(&self) -> usize {
        self.jobs.len()
    }

    /// Whether there is no job.
    pub fn is_empty(&self) -> bool {
        self.jobs.is_empty()
    }

    /// Elements of a table that is large enough for the jobs so far: the sum of what [`room`] says for each. As with `room`, that it always is, is not
    /// proved; a job that finds too little left is refused with [`Reason::Room`], and those behind it may still find enough.
    pub fn room(&self) -> usize {
        let counts = self.jobs.iter().map(|job| job.count as usize);
        // Longer ones are refused and take no rows.
        counts.filter(|count| *count <= MOST_TOKENS).map(room).sum()
    }

    /// Runs the jobs, in order, and hands back the outcome of each. What no job takes of the table ends as zeros. The night stays as it is and can be
    /// run again, say with a larger table.
    ///
    /// # Errors
    ///
    /// The whole call is refused with [`Reason::Job`] if there are more than [`MOST_JOBS`] jobs, and else with [`Reason::Lengths`] if the lists that it
    /// is [over](Night::over) differ in length. The table holds zeros then.
    pub fn run<'t>(&self, table: &'t mut [u32]) -> Result<Vec<Result<Tree<'t>, Refusal>>, Refusal> {
        let mut records = self.jobs.clone();
        let whole = batch(&self.kinds, &self.lens, &mut records, table);
        if whole.number != 0 {
            return Err(Refusal::new(&whole, &[]));
        }
        let mut free: &'t [u32] = table;
        let outcome = |(asked, record): (&Job, Job)| {
            let answer = if asked.entry == NO_ENTRY { asked.answer } else { record.answer };
            if answer.number != 0 {
                return Err(Refusal::new(&answer, self.lens_of(asked)));
            }
            let (own, behind) = free.split_at(answer.rows as usize * ROW);
            free = behind;
            Ok(Tree::new(own, answer.rows))
        };
        Ok(self.jobs.iter().zip(records).map(outcome).collect())
    }

    /// The lengths of a job's own tokens; none if its range is not inside the lists.
    fn lens_of(&self, job: &Job) -> &[u32] {
        let first = job.first as usize;
        let tokens = first..first.saturating_add(job.count as usize);
        self.lens.get(tokens).unwrap_or_default()
    }
}
