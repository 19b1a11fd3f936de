//! An operator line as tokens: operands joined by operators of 01's table, with
//! trivia anywhere between.

use std::collections::HashMap;
use std::ops::Range;
use std::sync::LazyLock;

use oracle::kinds::Kind;
use oracle::text;

/// 01's table: a binding, its operators, whether they are associative.
#[rustfmt::skip]
pub const TABLE: [(u32, &[&str], bool); 11] = [
    (13, &["as", "is", "is not"], false),
    (11, &["*", "/", "%"], true),
    (10, &["+", "-"], true),
    (9, &["<<", ">>"], true),
    (8, &["&"], true),
    (7, &["^"], true),
    (6, &["|"], true),
    (5, &["==", "!=", "<", ">", "<=", ">="], false),
    (4, &["&&"], true),
    (3, &["||"], true),
    (1, &["+=", "-=", "*=", "/=", "%=", "&=", "^=", "|=", "<<=", ">>="], false),
];

/// How an operator binds.
#[derive(Debug, Clone, Copy, PartialEq, Eq)]
pub struct Binding {
    pub tightness: u32,
    pub associative: bool,
}

impl Binding {
    /// The binding of a line of the table.
    pub fn of(line: usize) -> Binding {
        let (tightness, _, associative) = TABLE[line];
        Binding {
            tightness,
            associative,
        }
    }

    pub fn is_tighter_than(self, other: Binding) -> bool {
        self.tightness > other.tightness
    }
}

/// The operands, each a token, and the operators between them, each one token or
/// `is`, trivia and `not`.
pub struct Line {
    pub operands: Vec<usize>,
    pub operators: Vec<Range<usize>>,
    pub bindings: Vec<Binding>,
}

impl Line {
    /// The line that tokens are, if they are one.
    pub fn read(kinds: &[u8]) -> Option<Line> {
        let solid = |at: &usize| !Kind::of_token(kinds[*at]).is_trivia();
        let mut tokens = (0..kinds.len()).filter(solid).peekable();
        let mut line = Line {
            operands: vec![tokens.next()?],
            operators: Vec::new(),
            bindings: Vec::new(),
        };
        while let Some(begins) = tokens.next() {
            line.bindings.push(*BINDINGS.get(&kinds[begins])?);
            let is = Kind::of_token(kinds[begins]) == Kind::Is;
            let not = tokens.next_if(|at| is && Kind::of_token(kinds[*at]) == Kind::Not);
            line.operators.push(begins..not.unwrap_or(begins) + 1);
            line.operands.push(tokens.next()?);
        }
        let operands = |at: &usize| is_literal(kinds[*at]) || is_identifier(kinds[*at]);
        line.operands.iter().all(operands).then_some(line)
    }
}

/// The binding of every operator's first token.
static BINDINGS: LazyLock<HashMap<u8, Binding>> = LazyLock::new(|| {
    let of_line = |line: usize| {
        let kinds = TABLE[line].1.iter().map(|sign| text::tokens(sign).0[0]);
        kinds.map(move |kind| (kind, Binding::of(line)))
    };
    (0..TABLE.len()).flat_map(of_line).collect()
});

pub fn is_literal(kind: u8) -> bool {
    use Kind::*;
    let kind = Kind::of_token(kind);
    matches!(kind, True | False | Number | Str | ByteStr | Char | Byte)
}

fn is_identifier(kind: u8) -> bool {
    Kind::of_token(kind) == Kind::Ident
}

#[cfg(test)]
mod tests {
    use super::*;

    fn read(text: &str) -> Option<Line> {
        Line::read(&text::tokens(text).0)
    }

    #[test]
    fn trivia_may_stand_anywhere() {
        let line = read(" a /* */ is /* */ not /* */ 1 ").expect("a line");
        assert_eq!(line.operands, [1, 13]);
        assert_eq!(line.operators, vec![Range { start: 5, end: 10 }]);
        assert_eq!(line.bindings, [Binding::of(0)]);
    }

    #[test]
    fn what_is_no_line() {
        for text in ["", "+", "a+", "a b", "a not b", "is not b", "a=b", "self"] {
            assert!(read(text).is_none(), "`{text}`");
        }
    }
}
