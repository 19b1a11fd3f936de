//! Shared by the tests; each takes what it needs.
#![allow(dead_code)]

use oracle::case::Case;
use oracle::{text, Answer, Entry};

/// A case of a text, with room enough and the deepest limit.
pub fn case(entry: Entry, text: &str) -> Case {
    let (kinds, lens) = text::tokens(text);
    Case::roomy(entry, kinds, lens)
}

/// A case of kinds, each one byte long.
pub fn of_kinds(entry: Entry, kinds: &[u8]) -> Case {
    Case::roomy(entry, kinds.to_vec(), vec![1; kinds.len()])
}

/// Runs a case. Every element of a refusal's table, and all past the rows of an
/// accepted one, must be zero.
pub fn run(case: &Case) -> Answer {
    let (answer, table) = case.run();
    let rows = answer.rows as usize * oracle::ROW;
    assert!(table[rows..].iter().all(|element| *element == 0));
    assert!(answer.number == 0 || answer.rows == 0);
    assert!(answer.number != 0 || answer.place == 0);
    answer
}

/// Number and place, which are both 0 on acceptance.
pub fn outcome(case: &Case) -> (u32, u32) {
    let answer = run(case);
    (answer.number, answer.place)
}

/// Runs with a stack that the deepest input fits in, in any build.
pub fn deep(test: impl FnOnce() + Send) {
    std::thread::scope(|scope| {
        let thread = std::thread::Builder::new().stack_size(oracle::deep::STACK);
        let running = thread.spawn_scoped(scope, test).expect("a thread");
        if let Err(why) = running.join() {
            std::panic::resume_unwind(why);
        }
    });
}
