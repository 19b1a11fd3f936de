//! One case on both sides, and what differs.

use std::fmt::Write as _;

use oracle::case::Case;
use oracle::{tree, Answer, Entry, ROW};

use crate::native;

/// Elements on either side of the proved parser's table that it must not touch.
const GUARD: usize = 16;

/// What the proved parser's table holds beforehand.
pub fn noise(at: usize) -> u32 {
    0xdead_beef_u32.wrapping_add(at as u32)
}

/// What the oracle's table holds: something else everywhere, so that an element
/// which both sides leave alone differs too.
pub fn other_noise(at: usize) -> u32 {
    !noise(at)
}

/// Either side's parse.
pub type Side = fn(Entry, &[u8], &[u32], &mut [u32], u32, u32) -> Answer;

/// Who says what the answer has to be.
pub struct Judge {
    pub name: &'static str,
    pub parse: Side,
}

pub const ORACLE: Judge = Judge {
    name: "oracle",
    parse: oracle::parse,
};

/// Puts a case to one side.
pub fn ask(side: Side, case: &Case, table: &mut [u32]) -> Answer {
    let Case { kinds, lens, .. } = case;
    side(case.entry, kinds, lens, table, case.separator, case.limit)
}

/// A case for which the two sides do not agree.
pub struct Difference {
    /// How long it is to read.
    pub size: usize,
    /// Each thing that differs.
    pub what: String,
    /// Who wanted another answer.
    pub judge: &'static str,
    /// The case with each side's answer as a line.
    pub wanted_line: String,
    pub native_line: String,
}

/// Both sides' tables, kept from case to case.
#[derive(Default)]
pub struct Pair {
    wanted: Vec<u32>,
    native: Vec<u32>,
}

impl Pair {
    /// Answers a case on both sides. Gives the oracle's answer, and what differs.
    pub fn compare(&mut self, case: &Case) -> (Answer, Option<Difference>) {
        self.compare_with(&ORACLE, case)
    }

    /// The same where another than the oracle judges.
    pub fn compare_with(&mut self, judge: &Judge, case: &Case) -> (Answer, Option<Difference>) {
        let want = self.ask_judge(judge, case);
        let got = self.ask_native(case);
        let same = want == got && self.tables_agree();
        let difference = (!same).then(|| self.difference(judge.name, case, &want, &got));
        (want, difference)
    }

    /// The case with the proved parser's answer as a line.
    pub fn native_line(&mut self, case: &Case) -> String {
        let got = self.ask_native(case);
        case.line_with(&got, &tree::rows(self.native_table(), got.rows))
    }

    fn ask_judge(&mut self, judge: &Judge, case: &Case) -> Answer {
        ask(judge.parse, case, self.fresh_wanted(case.elements))
    }

    fn ask_native(&mut self, case: &Case) -> Answer {
        ask(native::parse, case, self.fresh_native(case.elements))
    }

    /// A table of so many elements for the judge, with its noise.
    pub fn fresh_wanted(&mut self, elements: usize) -> &mut [u32] {
        self.wanted.clear();
        self.wanted.extend((0..elements).map(other_noise));
        &mut self.wanted
    }

    /// The same for the proved parser, between its guards.
    pub fn fresh_native(&mut self, elements: usize) -> &mut [u32] {
        self.native.clear();
        self.native.extend((0..elements + 2 * GUARD).map(noise));
        &mut self.native[GUARD..GUARD + elements]
    }

    /// The judge's table after the call.
    pub fn wanted(&self) -> &[u32] {
        &self.wanted
    }

    /// Every element is the same, and nothing beside the table was written.
    pub fn tables_agree(&self) -> bool {
        self.wanted == self.native_table() && self.guards_kept()
    }

    fn native_table(&self) -> &[u32] {
        &self.native[GUARD..self.native.len() - GUARD]
    }

    fn guards_kept(&self) -> bool {
        let end = self.native.len() - GUARD;
        let mut outside = (0..GUARD).chain(end..self.native.len());
        outside.all(|at| self.native[at] == noise(at))
    }

    fn difference(
        &self,
        judge: &'static str,
        case: &Case,
        want: &Answer,
        got: &Answer,
    ) -> Difference {
        let what = answers("", judge, want, got) + &self.what_of_tables(judge);
        let line = |answer: &Answer, table: &[u32]| {
            case.line_with(answer, &tree::rows(table, answer.rows))
        };
        Difference {
            size: case.kinds.len(),
            what,
            judge,
            wanted_line: line(want, &self.wanted),
            native_line: line(got, self.native_table()),
        }
    }

    /// What differs in the tables, or beside them.
    pub fn what_of_tables(&self, judge: &str) -> String {
        let mut what = elements(judge, &self.wanted, self.native_table());
        if !self.guards_kept() {
            what += "  written outside the table\n";
        }
        what
    }
}

/// Each part of an answer that differs; `of` says whose answer.
pub fn answers(of: &str, judge: &str, want: &Answer, got: &Answer) -> String {
    let parts = [
        ("number", want.number, got.number),
        ("place", want.place, got.place),
        ("rows", want.rows, got.rows),
    ];
    let mut what = String::new();
    for (name, want, got) in parts {
        if want != got {
            writeln!(what, "  {of}{name}: {judge} {want}, krosstavel {got}").unwrap();
        }
    }
    what
}

fn elements(judge: &str, want: &[u32], got: &[u32]) -> String {
    let differs = |at: &usize| want[*at] != got[*at];
    let mut differing = (0..want.len()).filter(differs);
    let Some(at) = differing.next() else {
        return String::new();
    };
    let part = ["kind", "back", "start", "length"][at % ROW];
    let left = if got[at] == noise(at + GUARD) {
        " (left as it was)"
    } else {
        ""
    };
    format!(
        "  {} elements, the first {at} (row {}, {part}): {judge} {}, krosstavel {}{left}\n",
        1 + differing.count(),
        at / ROW,
        want[at],
        got[at],
    )
}

#[cfg(test)]
mod tests {
    use super::*;

    const WANT: Answer = Answer {
        number: 0,
        place: 0,
        rows: 2,
    };

    #[test]
    fn each_part_of_an_answer_is_named() {
        let got = |number, place, rows| Answer {
            number,
            place,
            rows,
        };
        let told = |got| answers("job 5, ", "oracle", &WANT, &got);
        assert_eq!(told(WANT), "");
        assert!(told(got(6, 0, 2)).contains("job 5, number: oracle 0, krosstavel 6"));
        assert!(told(got(0, 1, 2)).contains("place: oracle 0, krosstavel 1"));
        assert!(told(got(0, 0, 3)).contains("rows: oracle 2, krosstavel 3"));
    }

    #[test]
    fn elements_left_alone_are_named() {
        assert_eq!(elements("oracle", &[1, 2, 3], &[1, 2, 3]), "");
        assert!(
            elements("oracle", &[0; 7], &[0, 0, 0, 0, 0, 9, 9]).contains("2 elements, the first 5")
        );
        let stale = [0, noise(1 + GUARD)];
        assert!(elements("oracle", &[0; 2], &stale).contains("left as it was"));
    }

    #[test]
    fn a_write_beside_the_table_is_seen() {
        let mut pair = Pair::default();
        for (len, at) in [(32, 0), (32, 15), (40, 24), (40, 39)] {
            pair.native = (0..len).map(noise).collect();
            assert!(pair.guards_kept());
            pair.native[at] = 0;
            assert!(!pair.guards_kept());
        }
    }

    #[test]
    fn no_element_starts_alike() {
        assert!((0..1000).all(|at| noise(at + GUARD) != other_noise(at)));
    }
}
