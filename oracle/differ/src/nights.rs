//! `differ nights`: nights of jobs over shared lists and one table, drawn at random.

pub mod bench;
mod both;
mod draw;
pub mod edges;

use crate::drive::{self, Batches};
use crate::options::Options;
use crate::pair::Pair;
use crate::run::{fresh_seed, seed_of};
use crate::tally::Tally;
use crate::Done;

pub use both::Night;

use both::Outcome;
use draw::Draw;

/// Nights of a batch: a moment's work.
const BATCH: u64 = 100;

/// The longest scripts, by batch: mostly short ones, which say more for their time.
const SIZES: [usize; 5] = [10, 20, 40, 20, 80];

pub fn command(args: &[&str]) -> Done {
    let options = Options::read(args, &["--count", "--seed", "--threads"])?;
    let count = options.need("--count")?;
    let seed = options.get("--seed").unwrap_or_else(fresh_seed);
    eprintln!("seed {seed}");

    let batches = Batches {
        count: count.div_ceil(BATCH),
        cases: count,
        threads: drive::threads(options.get("--threads")),
        work: |batch, pair: &mut Pair, tally: &mut Tally| {
            let mut draw = Draw::new(seed_of(seed, batch), SIZES[batch as usize % SIZES.len()]);
            for _ in 0..BATCH.min(count - batch * BATCH) {
                try_night(&draw.night(), pair, tally);
            }
        },
    };
    let (tally, took) = batches.run();
    let nights = tally.cases;
    println!(
        "seed {seed}: {nights} nights in {:.1} s, {} a second: {tally:#}",
        took.as_secs_f64(),
        drive::per_second(nights, took)
    );
    tally.verdict()
}

/// Puts a night to both sides and counts it. Gives what the oracle wants.
fn try_night(night: &Night, pair: &mut Pair, tally: &mut Tally) -> Outcome {
    let (want, difference) = both::compare(night, pair);
    tally.count(&want.whole, difference);
    tally.count_jobs(want.jobs.iter().flatten());
    want
}
