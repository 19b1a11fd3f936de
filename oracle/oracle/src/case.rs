//! A case: everything that goes into a parse, with its answer, as one line.

use crate::tree::{self, Row};
use crate::{parse, Answer, Entry};

/// What goes into a parse.
#[derive(Debug, Clone, PartialEq, Eq, Hash)]
pub struct Case {
    pub entry: Entry,
    /// 0 unless the entry is `exprs`.
    pub separator: u32,
    pub limit: u32,
    /// How many elements the table has.
    pub elements: usize,
    pub kinds: Vec<u8>,
    pub lens: Vec<u32>,
}

/// What the table holds before a parse, so that nothing left alone looks right.
const NOISE: u32 = 0xa5a5_a5a5;

impl Case {
    /// Tokens with an entry, the deepest limit and more room than they need.
    pub fn roomy(entry: Entry, kinds: Vec<u8>, lens: Vec<u32>) -> Case {
        let separator = match entry {
            Entry::Exprs => K![,].token_number().into(),
            _ => 0,
        };
        Case {
            entry,
            separator,
            limit: crate::DEEPEST,
            elements: (kinds.len() * 6 + 2) * crate::ROW,
            kinds,
            lens,
        }
    }

    /// Parses, and gives the answer with the whole table.
    pub fn run(&self) -> (Answer, Vec<u32>) {
        let mut table = vec![NOISE; self.elements];
        let Case { kinds, lens, .. } = self;
        let answer = parse(
            self.entry,
            kinds,
            lens,
            &mut table,
            self.separator,
            self.limit,
        );
        (answer, table)
    }

    /// Parses, and gives the answer with its rows.
    pub fn rows(&self) -> (Answer, Vec<Row>) {
        let (answer, table) = self.run();
        (answer, tree::rows(&table, answer.rows))
    }

    /// The case and its answer as a line.
    pub fn line(&self) -> String {
        let (answer, rows) = self.rows();
        self.line_with(&answer, &rows)
    }

    /// The case with a given answer as a line.
    pub fn line_with(&self, answer: &Answer, rows: &[Row]) -> String {
        let mut line = Line(String::with_capacity(16 * (self.kinds.len() + 4)));
        line.put(self.entry as u64);
        line.put(self.separator.into());
        line.put(self.limit.into());
        line.put(self.elements as u64);
        line.put(self.kinds.len() as u64);
        self.kinds.iter().for_each(|kind| line.put((*kind).into()));
        line.put(self.lens.len() as u64);
        self.lens.iter().for_each(|len| line.put((*len).into()));
        line.put(answer.number.into());
        line.put(answer.place.into());
        line.put(answer.rows.into());
        for row in rows {
            if row.is_leaf() {
                line.put(0);
            } else {
                line.put(row.kind.into());
                line.put(row.back.into());
            }
        }
        line.0
    }

    /// Reads a line's case; the answer that follows is left alone.
    pub fn read(line: &str) -> Option<Case> {
        let mut numbers = line.split(' ').map(str::parse::<u64>);
        let mut next = || numbers.next()?.ok();
        let entry = match next()? {
            0 => Entry::Root,
            1 => Entry::Exprs,
            2 => Entry::Format,
            _ => return None,
        };
        let separator = next()?.try_into().ok()?;
        let limit = next()?.try_into().ok()?;
        let elements = next()?.try_into().ok()?;
        let kinds = (0..next()?).map(|_| next()?.try_into().ok());
        let kinds = kinds.collect::<Option<Vec<u8>>>()?;
        let lens = (0..next()?).map(|_| next()?.try_into().ok());
        let lens = lens.collect::<Option<Vec<u32>>>()?;
        Some(Case {
            entry,
            separator,
            limit,
            elements,
            kinds,
            lens,
        })
    }
}

/// Decimal numbers with one space between them.
struct Line(String);

impl Line {
    fn put(&mut self, mut number: u64) {
        let mut digits = [0; 20];
        let mut from = digits.len();
        loop {
            from -= 1;
            digits[from] = b'0' + (number % 10) as u8;
            number /= 10;
            if number == 0 {
                break;
            }
        }
        if !self.0.is_empty() {
            self.0.push(' ');
        }
        self.0.extend(digits[from..].iter().map(|d| char::from(*d)));
    }
}
