//! `differ run`: generated cases.

use std::time::{SystemTime, UNIX_EPOCH};

use oracle::generate::Source;

use crate::drive::{self, Batches};
use crate::options::Options;
use crate::pair::Pair;
use crate::tally::Tally;
use crate::Done;

/// Cases of a batch: a moment's work.
const BATCH: u64 = 500;

/// The largest lists, by batch, unless `--max-tokens` says: mostly short ones,
/// which say more for their time, and some that every depth fits in.
const SIZES: [usize; 8] = [10, 20, 40, 20, 80, 40, 160, 700];

pub fn command(args: &[&str]) -> Done {
    let known = ["--seed", "--count", "--max-tokens", "--threads"];
    let options = Options::read(args, &known)?;
    let count = options.need("--count")?;
    let seed = options.get("--seed").unwrap_or_else(fresh_seed);
    let max_tokens = options.get("--max-tokens").map(|most| most as usize);
    eprintln!("seed {seed}");

    let batches = Batches {
        count: count.div_ceil(BATCH),
        cases: count,
        threads: drive::threads(options.get("--threads")),
        work: |batch, pair: &mut Pair, tally: &mut Tally| {
            let most = max_tokens.unwrap_or(SIZES[batch as usize % SIZES.len()]);
            let cases = BATCH.min(count - batch * BATCH);
            generated(seed_of(seed, batch), most, cases, pair, tally);
        },
    };
    let (tally, took) = batches.run();
    let cases = tally.cases;
    println!(
        "seed {seed}: {cases} cases in {:.1} s, {} a second: {tally}",
        took.as_secs_f64(),
        drive::per_second(cases, took)
    );
    tally.verdict()
}

fn generated(seed: u64, most: usize, cases: u64, pair: &mut Pair, tally: &mut Tally) {
    let mut source = Source::new(seed, most);
    for _ in 0..cases {
        let (_, case) = source.next_case();
        tally.try_case(pair, &case);
    }
}

pub fn fresh_seed() -> u64 {
    let since = SystemTime::now().duration_since(UNIX_EPOCH);
    since.map_or(0, |since| since.as_nanos() as u64)
}

/// A batch's own seed. Neighbours must not be neighbours in the generator's
/// sequence, so the number is mixed well (the finish of murmur3).
pub fn seed_of(seed: u64, batch: u64) -> u64 {
    let mut z = seed ^ batch.wrapping_mul(0xd6e8_feb8_6659_fd93);
    z = (z ^ (z >> 33)).wrapping_mul(0xff51_afd7_ed55_8ccd);
    z = (z ^ (z >> 33)).wrapping_mul(0xc4ce_b9fe_1a85_ec53);
    z ^ (z >> 33)
}
