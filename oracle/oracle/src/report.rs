//! What a batch of cases went through: for people, on standard error.

use std::fmt;

use crate::case::Case;
use crate::generate::{Class, CLASSES};
use crate::tree::Row;
use crate::{coverage, kinds, Answer};

/// Counts of cases by class, by number and entry, and of node rows by kind.
pub struct Report {
    classes: [u64; CLASSES.len()],
    numbers: [[u64; 3]; 12],
    nodes: [u64; 256],
}

impl Default for Report {
    fn default() -> Self {
        Self::new()
    }
}

impl Report {
    /// Starts the counts of rules anew as well.
    pub fn new() -> Report {
        coverage::reset();
        Report {
            classes: [0; CLASSES.len()],
            numbers: [[0; 3]; 12],
            nodes: [0; 256],
        }
    }

    pub fn add(&mut self, class: Option<Class>, case: &Case, answer: &Answer, rows: &[Row]) {
        if let Some(class) = class {
            self.classes[class as usize] += 1;
        }
        self.numbers[answer.number as usize][case.entry as usize] += 1;
        for row in rows {
            self.nodes[row.kind as usize] += 1;
        }
    }

    /// How many cases came to a number, by entry.
    pub fn by_entry(&self, number: usize) -> [u64; 3] {
        self.numbers[number]
    }

    /// Node kinds of which no row was written.
    pub fn kinds_missing(&self) -> Vec<&'static str> {
        let missing = kinds::NODES
            .iter()
            .filter(|(number, _)| self.nodes[*number as usize] == 0);
        missing.map(|(_, name)| *name).collect()
    }
}

impl fmt::Display for Report {
    fn fmt(&self, f: &mut fmt::Formatter<'_>) -> fmt::Result {
        if self.classes.iter().any(|count| *count > 0) {
            writeln!(f, "cases by class")?;
            for (class, name) in CLASSES {
                writeln!(f, "  {name:24}{:10}", self.classes[class as usize])?;
            }
        }
        writeln!(
            f,
            "cases by number         {:>10}{:>10}{:>10}",
            "root", "exprs", "format"
        )?;
        for (number, [root, exprs, format]) in self.numbers.iter().enumerate() {
            writeln!(f, "  {number:<24}{root:8}{exprs:10}{format:10}")?;
        }
        writeln!(f, "rules entered")?;
        for (name, count) in coverage::report(&coverage::counts()) {
            let by = coverage::counted_by(name);
            let by = if by == name {
                String::new()
            } else {
                format!("  (as {by})")
            };
            let never = if count == 0 { "  NEVER REACHED" } else { "" };
            writeln!(f, "  {name:24}{count:10}{by}{never}")?;
        }
        writeln!(f, "rows by kind")?;
        for (number, name) in kinds::list() {
            let count = self.nodes[number as usize];
            let never = if count == 0 { "  NEVER WRITTEN" } else { "" };
            writeln!(f, "  {name:24}{count:10}{never}")?;
        }
        Ok(())
    }
}
