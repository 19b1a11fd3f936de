//! Many batches of cases over several threads, with progress on standard error.

use std::sync::atomic::{AtomicBool, AtomicU64, Ordering};
use std::sync::mpsc::{self, RecvTimeoutError, Sender};
use std::thread;
use std::time::{Duration, Instant};

use oracle::deep::STACK;

use crate::pair::Pair;
use crate::tally::Tally;

/// Enough differences to stop at: the shortest of them are worth reading.
const ENOUGH: u64 = 100;

/// How often progress is shown.
const EVERY: Duration = Duration::from_secs(5);

/// Batches, by number, and what each does.
pub struct Batches<W> {
    pub count: u64,
    /// For the progress shown.
    pub cases: u64,
    pub threads: usize,
    pub work: W,
}

/// As many threads as the machine runs at once, unless told otherwise.
pub fn threads(asked: Option<u64>) -> usize {
    let there = || thread::available_parallelism().map_or(1, usize::from);
    asked.map_or_else(there, |asked| asked.max(1) as usize)
}

impl<W: Fn(u64, &mut Pair, &mut Tally) + Sync> Batches<W> {
    /// Does every batch and adds up what they came to.
    pub fn run(&self) -> (Tally, Duration) {
        let next = AtomicU64::new(0);
        let stop = AtomicBool::new(false);
        let from = Instant::now();
        let tally = thread::scope(|scope| {
            let (sender, receiver) = mpsc::channel();
            for _ in 0..self.threads {
                let sender = sender.clone();
                let thread = thread::Builder::new().stack_size(STACK);
                let worker = || self.worker(&next, &stop, sender);
                thread.spawn_scoped(scope, worker).expect("a thread");
            }
            drop(sender);
            self.collect(receiver, &stop, from)
        });
        (tally, from.elapsed())
    }

    /// One thread: takes batches until there are no more. A batch's cases follow
    /// from its number alone, so it does not matter who takes it.
    fn worker(&self, next: &AtomicU64, stop: &AtomicBool, sender: Sender<Tally>) {
        let mut pair = Pair::default();
        while !stop.load(Ordering::Relaxed) {
            let batch = next.fetch_add(1, Ordering::Relaxed);
            if batch >= self.count {
                return;
            }
            let mut tally = Tally::default();
            (self.work)(batch, &mut pair, &mut tally);
            if sender.send(tally).is_err() {
                return;
            }
        }
    }

    /// Adds up until every thread has ended.
    fn collect(&self, from: mpsc::Receiver<Tally>, stop: &AtomicBool, began: Instant) -> Tally {
        let mut all = Tally::default();
        let mut shown = began;
        loop {
            match from.recv_timeout(EVERY) {
                Ok(tally) => all.add(tally),
                Err(RecvTimeoutError::Timeout) => {}
                Err(RecvTimeoutError::Disconnected) => return all,
            }
            if all.differing >= ENOUGH && !stop.swap(true, Ordering::Relaxed) {
                eprintln!("stopping: enough cases differ");
            }
            if shown.elapsed() >= EVERY {
                shown = Instant::now();
                let (cases, differing) = (all.cases, all.differing);
                let each = per_second(cases, began.elapsed());
                let of = self.cases;
                eprintln!("{cases} of {of} cases, {each} a second, {differing} differ");
            }
        }
    }
}

pub fn per_second(cases: u64, took: Duration) -> u64 {
    (cases as f64 / took.as_secs_f64().max(1e-9)) as u64
}
