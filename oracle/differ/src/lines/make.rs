//! Lines to try: bindings that are given or drawn, and all else drawn.

use oracle::case::Case;
use oracle::kinds::Kind;
use oracle::rng::Rng;
use oracle::{text, Entry, DEEPEST, ROW};

use super::group::clash_with;
use super::line::{Binding, TABLE};

/// Identifiers are as many as literals.
#[rustfmt::skip]
const OPERANDS: [Kind; 14] = [
    Kind::True, Kind::False, Kind::Number, Kind::Str, Kind::ByteStr, Kind::Char, Kind::Byte,
    Kind::Ident, Kind::Ident, Kind::Ident, Kind::Ident, Kind::Ident, Kind::Ident, Kind::Ident,
];

const TRIVIA: [Kind; 3] = [Kind::Whitespace, Kind::Comment, Kind::MultilineComment];

/// The depth that every line gets by with (01).
const ENOUGH: usize = 14;

/// A call with operators of these lines of the table, in order: four rows a token,
/// a depth limit that is enough, any separator.
pub fn call(rng: &mut Rng, bindings: &[usize]) -> Case {
    let mut tokens = Tokens::default();
    // Half the lines have no trivia.
    let trivia = rng.pick(&[0, 0, 20, 60]);
    tokens.operand(rng, trivia);
    for line in bindings {
        let sign = rng.pick(TABLE[*line].1);
        for word in sign.split(' ') {
            tokens.push(rng, text::tokens(word).0[0]);
            tokens.trivia(rng, trivia);
        }
        tokens.operand(rng, trivia);
    }
    let mut case = Case::roomy(Entry::Exprs, tokens.kinds, tokens.lens);
    case.elements = 4 * ROW * case.kinds.len();
    case.limit = rng.between(ENOUGH, DEEPEST as usize) as u32;
    case.separator = separator(rng);
    case
}

/// Any kind that a call takes: it may be an operator, or an operand.
fn separator(rng: &mut Rng) -> u32 {
    let kind = rng.between(1, 127) as u8;
    match Kind::of_token(kind).is_trivia() {
        true => separator(rng),
        false => kind.into(),
    }
}

#[derive(Default)]
struct Tokens {
    kinds: Vec<u8>,
    lens: Vec<u32>,
}

impl Tokens {
    fn push(&mut self, rng: &mut Rng, kind: u8) {
        self.kinds.push(kind);
        self.lens.push(rng.below(10) as u32);
    }

    /// No trivia or more, by the chance of each.
    fn trivia(&mut self, rng: &mut Rng, chance: usize) {
        while rng.percent(chance) {
            let kind = rng.pick(&TRIVIA).token_number();
            self.push(rng, kind);
        }
    }

    /// An operand between trivia.
    fn operand(&mut self, rng: &mut Rng, chance: usize) {
        self.trivia(rng, chance);
        let kind = rng.pick(&OPERANDS).token_number();
        self.push(rng, kind);
        self.trivia(rng, chance);
    }
}

/// That many operators, as lines of the table. Lines drawn at random would clash
/// before long, so an operator that clashes is drawn again; in every second line
/// only up to some place.
pub fn drawn(rng: &mut Rng, length: usize) -> Vec<usize> {
    let calm = match rng.percent(50) {
        true => length,
        false => rng.between(0, length),
    };
    let mut lines: Vec<usize> = Vec::new();
    let mut bindings: Vec<Binding> = Vec::new();
    while lines.len() < length {
        let line = rng.below(TABLE.len());
        bindings.push(Binding::of(line));
        if lines.len() < calm && clash_with(&bindings, lines.len()).is_some() {
            bindings.pop();
        } else {
            lines.push(line);
        }
    }
    lines
}
