//! `differ check`: a file of case lines.

use std::fs;

use oracle::case::Case;

use crate::pair::Pair;
use crate::tally::Tally;
use crate::Done;

pub fn command(file: &str) -> Done {
    let text = fs::read_to_string(file).map_err(|why| format!("{file}: {why}"))?;
    let mut pair = Pair::default();
    let mut tally = Tally::default();
    let mut stale = 0;

    for (at, line) in text.lines().enumerate() {
        let Some(case) = Case::read(line) else {
            return Err(format!("{file}:{}: not a case", at + 1));
        };
        tally.try_case(&mut pair, &case);
        if !agrees(line, &pair.native_line(&case)) {
            stale += 1;
            eprintln!("{file}:{}: another answer than krosstavel's", at + 1);
        }
    }

    println!("{} cases: {tally}; {stale} unlike their line", tally.cases);
    tally.verdict()?;
    match stale {
        0 => Ok(()),
        _ => Err(format!("{file}: {stale} lines have another answer")),
    }
}

/// The line has this answer, or none.
fn agrees(line: &str, answered: &str) -> bool {
    match answered.strip_prefix(line) {
        Some(rest) => rest.is_empty() || rest.starts_with(' '),
        None => false,
    }
}
