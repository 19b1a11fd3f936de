//! Places in a text: its line, and a caret under it.

use std::fmt::Write as _;
use std::ops::Range;

use krosstavel::Refusal;

use crate::lexer::{Note, Tokens};

/// Number and meaning, in one line.
pub fn why(refusal: &Refusal) -> String {
    format!("refused with {}: {}", refusal.number(), refusal.reason().meaning())
}

/// A refusal: number and meaning, the line, a caret.
pub fn of_refusal(refusal: &Refusal, text: &str) -> String {
    let mut out = why(refusal) + "\n";
    if let Some(Range { start, end }) = refusal.bytes() {
        out += &caret(text, start as usize..end as usize);
        let _ = writeln!(out, "(token {}, bytes {start}..{end})", refusal.place());
    }
    out
}

/// What the lexer found odd.
pub fn of_notes(tokens: &Tokens, text: &str) -> String {
    let note = |Note { at, what }: &Note| format!("note: {what}\n{}", caret(text, *at..at + 1));
    tokens.notes.iter().map(note).collect()
}

/// Where a byte of a text stands.
pub struct Spot {
    at: usize,
    /// Where its line begins.
    begin: usize,
    /// Counted from 1, as is the column, in characters.
    pub line: usize,
    pub column: usize,
}

impl Spot {
    /// The end of the text stands behind the last line that has something on it.
    pub fn of(text: &str, byte: usize) -> Spot {
        let at = if byte >= text.len() { text.trim_end().len() } else { byte };
        let begin = text[..at].rfind('\n').map_or(0, |line| line + 1);
        let line = 1 + text[..at].matches('\n').count();
        let column = 1 + text[begin..at].chars().count();
        Spot { at, begin, line, column }
    }
}

/// The line in which a range begins, with its number, and carets under what of the range is in it.
fn caret(text: &str, range: Range<usize>) -> String {
    let Spot { at, begin, line: number, .. } = Spot::of(text, range.start);
    let end = text[at..].find('\n').map_or(text.len(), |line| at + line);

    let before: String = text[begin..at].chars().map(blank).collect();
    let until = range.end.clamp(at, end);
    let under = text[at..].char_indices().take_while(|(byte, _)| at + byte < until);
    let carets = "^".repeat(under.count().max(1));
    let margin = " ".repeat(number.to_string().len());
    let line: String = text[begin..end].chars().map(visible).collect();
    format!("  {number} | {}\n  {margin} | {before}{carets}\n", line.trim_end())
}

/// What stands above a caret's left: a tab stays one.
fn blank(c: char) -> char {
    if c == '\t' {
        '\t'
    } else {
        ' '
    }
}

/// A control character would move the cursor.
fn visible(c: char) -> char {
    if c.is_control() && c != '\t' {
        '\u{fffd}'
    } else {
        c
    }
}
