//! What a line of the oracle's fixed list asks, in the format that `oracle/README.md` describes.

use krosstavel::{Entry, Refusal, Tree};

pub const CASES: &str = include_str!("../../../../oracle/vectors/cases.txt");

pub struct Asked {
    pub entry: Entry,
    pub limit: u32,
    pub elements: usize,
    pub kinds: Vec<u8>,
    pub lens: Vec<u32>,
}

pub fn numbers(line: &str) -> impl Iterator<Item = u32> + '_ {
    line.split(' ').map(|number| number.parse::<u32>().unwrap())
}

impl Asked {
    /// Takes the numbers of the question and leaves those of the answer.
    pub fn read(numbers: &mut impl Iterator<Item = u32>) -> Asked {
        let mut next = || numbers.next().unwrap();
        let (entry, separator, limit, elements) = (next(), next(), next(), next() as usize);
        let entry = [Entry::Root, Entry::Exprs(separator), Entry::Format][entry as usize];
        let kinds = (0..next()).map(|_| next() as u8).collect();
        let lens = (0..next()).map(|_| next()).collect();
        Asked { entry, limit, elements, kinds, lens }
    }

    /// The single call.
    pub fn parse<'t>(&self, table: &'t mut [u32]) -> Result<Tree<'t>, Refusal> {
        self.entry.parse(&self.kinds, &self.lens, table, self.limit)
    }
}
