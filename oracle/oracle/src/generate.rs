//! The seeded generator: five classes of cases, all drawn from one source of
//! numbers, so that a seed and a size give the same cases everywhere.

use crate::case::Case;
use crate::kinds::Kind;
use crate::program::{Maker, Piece};
use crate::rng::Rng;
use crate::{coverage, Entry, DEEPEST, MOST_BYTES, MOST_TOKENS, ROW};

/// What a case was made to try.
#[derive(Debug, Clone, Copy, PartialEq, Eq)]
pub enum Class {
    /// Any tokens in any order.
    Soup,
    /// Derivations of the grammar.
    Program,
    /// Derivations with a few tokens lost, added, changed or moved.
    Damaged,
    /// Operands and operators.
    Line,
    /// Limits, sizes and bad input at and round their edge.
    Limits,
}

/// The classes and how they are called, in the order of a report.
pub const CLASSES: [(Class, &str); 5] = [
    (Class::Soup, "soup"),
    (Class::Program, "program"),
    (Class::Damaged, "damaged"),
    (Class::Line, "operator line"),
    (Class::Limits, "limits"),
];

/// An endless source of cases.
pub struct Source {
    rng: Rng,
    max_tokens: usize,
}

const WS: u8 = Kind::Whitespace.token_number();
const COMMENTS: [u8; 2] = [
    Kind::Comment.token_number(),
    Kind::MultilineComment.token_number(),
];

/// The openers of rules that go into themselves.
const NESTS: [&[Kind]; 12] = [
    &[K!['(']],
    &[K!['{']],
    &[K!['[']],
    &[K![||]],
    &[K![-]],
    &[K![!], K![*]],
    &[K![ident], K!['(']],
    &[K![ident], K![::], K![<]],
    &[K![if]],
    &[K![ident], K![=]],
    &[K![match], K![ident], K!['{'], K![_], K![=>]],
    &[K![return]],
];

/// Openers that go on after one beginning.
const STARTED_NESTS: [(&[Kind], &[Kind]); 4] = [
    (&[K![use]], &[K!['{']]),
    (&[K![let]], &[K!['(']]),
    (&[K![let]], &[K![ident], K!['{'], K![ident], K![:]]),
    (&[K![ident], K![::], K![<]], &[K![ident], K![::], K![<]]),
];

impl Source {
    pub fn new(seed: u64, max_tokens: usize) -> Source {
        Source {
            rng: Rng::new(seed),
            max_tokens,
        }
    }

    /// The next case and its class.
    pub fn next_case(&mut self) -> (Class, Case) {
        let class = match self.rng.below(20) {
            0..=2 => Class::Soup,
            3..=8 => Class::Program,
            9..=12 => Class::Damaged,
            13..=15 => Class::Line,
            _ => Class::Limits,
        };
        let case = match class {
            Class::Limits => self.limits(),
            class => self.plain(class),
        };
        (class, case)
    }

    /// How many tokens to aim at: smaller sizes come more often.
    fn size(&mut self) -> usize {
        let most = self.max_tokens + 1;
        self.rng.below(most).min(self.rng.below(most))
    }

    // Cases that keep to all limits.

    fn plain(&mut self, class: Class) -> Case {
        let entry = self.entry(class);
        let separator = match entry {
            Entry::Exprs => self.separator(),
            _ => 0,
        };
        let mut pieces = match class {
            Class::Soup => self.soup(),
            Class::Line => self.line(),
            _ => self.program(entry, separator),
        };
        if class == Class::Damaged {
            self.damage(&mut pieces);
        }
        let kinds = self.sprinkled(&pieces);
        let lens = self.lengths(kinds.len());
        let mut case = Case::roomy(entry, kinds, lens);
        case.separator = separator;
        case.elements += self.rng.below(ROW);
        if self.rng.percent(4) {
            case.limit = self.rng.between(1, 24) as u32;
        }
        case
    }

    fn entry(&mut self, class: Class) -> Entry {
        let (root, exprs) = match class {
            Class::Soup => (40, 40),
            Class::Line => (20, 70),
            _ => (65, 22),
        };
        match self.rng.below(100) {
            n if n < root => Entry::Root,
            n if n < root + exprs => Entry::Exprs,
            _ => Entry::Format,
        }
    }

    fn separator(&mut self) -> u32 {
        let kind = match self.rng.below(10) {
            0 => K![;],
            1 => Kind::Other,
            2 => return self.significant().into(),
            _ => K![,],
        };
        kind.token_number().into()
    }

    /// Any token kind that isn't trivia, unassigned ones too.
    fn significant(&mut self) -> u8 {
        loop {
            let number = self.rng.between(1, 127) as u8;
            if !Kind::of_token(number).is_trivia() {
                return number;
            }
        }
    }

    /// Any token kind, unassigned ones now and then.
    fn any_kind(&mut self) -> u8 {
        match self.rng.below(20) {
            0 => self.rng.between(1, 127) as u8,
            _ => self.rng.between(1, 95) as u8,
        }
    }

    /// Tokens over all kinds, or over a few that then meet more often.
    fn soup(&mut self) -> Vec<Piece> {
        let few: Vec<u8> = (0..self.rng.between(2, 8))
            .map(|_| self.any_kind())
            .collect();
        let mix = self.rng.percent(60);
        (0..self.size())
            .map(|_| Piece {
                kind: match mix && self.rng.percent(92) {
                    true => self.rng.pick(&few),
                    false => self.any_kind(),
                },
                glued: false,
            })
            .collect()
    }

    fn line(&mut self) -> Vec<Piece> {
        let budget = self.size().min(60);
        let clean = self.rng.percent(25);
        let mut maker = Maker::new(&mut self.rng, budget, clean);
        maker.operator_line();
        maker.finish()
    }

    fn program(&mut self, entry: Entry, separator: u32) -> Vec<Piece> {
        let budget = self.size();
        let clean = self.rng.percent(50);
        let mut maker = Maker::new(&mut self.rng, budget, clean);
        match entry {
            Entry::Root => maker.statements(),
            Entry::Exprs => maker.expressions(Kind::of_token(separator as u8)),
            Entry::Format => maker.one_expression(),
        }
        maker.finish()
    }

    /// One to four small harms.
    fn damage(&mut self, pieces: &mut Vec<Piece>) {
        for _ in 0..self.rng.between(1, 4) {
            if pieces.is_empty() {
                return;
            }
            let at = self.rng.below(pieces.len());
            let piece = Piece {
                kind: self.any_kind(),
                glued: self.rng.percent(50),
            };
            match self.rng.below(12) {
                0..=2 => drop(pieces.remove(at)),
                3..=5 => pieces.insert(at, piece),
                6 | 7 => pieces[at] = piece,
                8 => pieces.insert(at, pieces[at]),
                9 | 10 => {
                    let other = self.rng.below(pieces.len());
                    pieces.swap(at, other);
                }
                _ => pieces.truncate(at),
            }
        }
    }

    /// The tokens with trivia between them, cut to the largest size. A glued
    /// token mostly stays glued.
    fn sprinkled(&mut self, pieces: &[Piece]) -> Vec<u8> {
        let chance = self.rng.pick(&[0, 0, 0, 8, 25, 60]);
        let mut kinds = Vec::with_capacity(pieces.len() * 2);
        for piece in pieces {
            let kept = piece.glued && self.rng.percent(95);
            while !kept && self.rng.percent(chance) {
                kinds.push(self.trivia());
            }
            kinds.push(piece.kind);
        }
        while self.rng.percent(chance) {
            kinds.push(self.trivia());
        }
        kinds.truncate(self.max_tokens);
        kinds
    }

    fn trivia(&mut self) -> u8 {
        match self.rng.below(4) {
            0 => self.rng.pick(&COMMENTS),
            _ => WS,
        }
    }

    fn lengths(&mut self, count: usize) -> Vec<u32> {
        (0..count)
            .map(|_| match self.rng.below(100) {
                0..=3 => 0,
                4 => self.rng.below(2000) as u32,
                _ => self.rng.between(1, 9) as u32,
            })
            .collect()
    }

    // Cases at an edge.

    fn limits(&mut self) -> Case {
        let class = self.rng.pick(&[
            Class::Soup,
            Class::Program,
            Class::Damaged,
            Class::Line,
            Class::Line,
        ]);
        let mut case = match self.rng.below(5) {
            0 => self.nest(),
            _ => self.plain(class),
        };
        self.push_to_edge(&mut case);
        if self.rng.percent(10) {
            self.push_to_edge(&mut case);
        }
        case
    }

    fn push_to_edge(&mut self, case: &mut Case) {
        match self.rng.below(18) {
            0 => case.limit = self.rng.pick(&[0, 1, 2, 256, 257, 512, 1 << 31, u32::MAX]),
            1 => self.edge_separator(case),
            2..=6 => self.edge_room(case),
            7..=9 => self.less_room(case),
            10..=13 => self.edge_depth(case),
            14 => self.edge_bytes(case),
            15 => self.bad_kind(case),
            16 => self.uneven(case),
            _ => self.edge_count(case),
        }
    }

    /// A rule inside itself again and again, its end left out.
    fn nest(&mut self) -> Case {
        let mut kinds: Vec<u8> = Vec::new();
        let number = |kinds: &[Kind]| kinds.iter().map(|k| k.token_number()).collect::<Vec<_>>();
        let turn = if self.rng.percent(70) {
            number(self.rng.pick(&NESTS))
        } else {
            let (start, turn) = self.rng.pick(&STARTED_NESTS);
            kinds = number(start);
            number(turn)
        };
        for _ in 0..self.size().min(300) / turn.len() {
            kinds.extend(&turn);
        }
        if self.rng.percent(70) {
            kinds.push(K![ident].token_number());
        }
        kinds.truncate(self.max_tokens);
        let lens = self.lengths(kinds.len());
        let entry = self.entry(Class::Soup);
        Case::roomy(entry, kinds, lens)
    }

    fn edge_separator(&mut self, case: &mut Case) {
        let unassigned = self.rng.between(96, 127) as u32;
        case.entry = Entry::Exprs;
        case.separator = self.rng.pick(&[
            0,
            1,
            13,
            14,
            15,
            16,
            17,
            95,
            96,
            127,
            128,
            255,
            256,
            280,
            u32::MAX,
            unassigned,
        ]);
        // Other and unassigned tokens to meet it.
        for kind in &mut case.kinds {
            if self.rng.percent(20) {
                *kind = self.rng.pick(&[17, 96, 100, 127]);
            }
        }
    }

    /// A trial run that leaves no mark in the coverage.
    fn trial(case: &Case) -> crate::Answer {
        let counts = coverage::counts();
        let (answer, _) = case.run();
        coverage::set_counts(&counts);
        answer
    }

    /// A table of just the size needed, and a few elements round that.
    fn edge_room(&mut self, case: &mut Case) {
        let need = Self::trial(case).rows as usize * ROW;
        case.elements = (need + self.rng.below(11)).saturating_sub(5);
    }

    /// A table that is full somewhere on the way.
    fn less_room(&mut self, case: &mut Case) {
        case.elements = match self.rng.below(4) {
            0 => self.rng.below(6),
            _ => self.rng.below(case.kinds.len() * 10 + 6),
        };
    }

    /// A depth limit round the one that is just enough.
    fn edge_depth(&mut self, case: &mut Case) {
        let (mut low, mut high) = (1, DEEPEST);
        while low < high {
            case.limit = (low + high) / 2;
            match Self::trial(case).number {
                10 => low = case.limit + 1,
                _ => high = case.limit,
            }
        }
        case.limit = match self.rng.below(8) {
            0 => self.rng.between(1, low as usize) as u32,
            1 | 2 => low + 1,
            3..=5 => low.saturating_sub(1),
            _ => low,
        };
    }

    /// A total round the largest, or lengths that would wrap.
    fn edge_bytes(&mut self, case: &mut Case) {
        if case.lens.is_empty() {
            return;
        }
        let at = self.rng.below(case.lens.len());
        case.lens[at] = 0;
        let rest: u64 = case.lens.iter().map(|len| u64::from(*len)).sum();
        let total = MOST_BYTES + self.rng.pick(&[0, 0, 1, 2]) - self.rng.pick(&[0, 0, 1]);
        case.lens[at] = match self.rng.below(5) {
            0 => u32::MAX - self.rng.below(12) as u32,
            _ => total.saturating_sub(rest) as u32,
        };
    }

    fn bad_kind(&mut self, case: &mut Case) {
        for _ in 0..self.rng.between(1, 2) {
            if let Some(last) = case.kinds.len().checked_sub(1) {
                let at = self.rng.between(0, last);
                case.kinds[at] = self.rng.pick(&[0, 0, 128, 129, 255, 207, 208]);
            }
        }
    }

    fn uneven(&mut self, case: &mut Case) {
        match self.rng.below(4) {
            0 => drop(case.kinds.pop()),
            1 => drop(case.lens.pop()),
            2 => case.kinds.push(K![;].token_number()),
            _ => case.lens.push(1),
        }
    }

    /// As many tokens as may be, or one more, if sizes reach so far; else none.
    fn edge_count(&mut self, case: &mut Case) {
        let count = match self.max_tokens > MOST_TOKENS {
            true => MOST_TOKENS + self.rng.below(2),
            false => 0,
        };
        case.kinds.resize(count, K![;].token_number());
        case.lens.resize(count, 1);
        case.elements = (count * 6 + 2) * ROW;
        if count == 0 {
            case.elements = self.rng.below(10);
        }
    }
}
