//! A small lexer, for display only. The product has none: its caller brings kinds and lengths, and nothing here is proved or promised. It knows
//! enough to write every token kind: `«` and `»` are the empty delimiters, a text between backquotes is a template, and a character that
//! begins nothing else is Other.

use krosstavel::Kind;

/// The tokens of a text, and what looked odd on the way.
#[derive(Default)]
pub struct Tokens {
    pub kinds: Vec<u8>,
    pub lens: Vec<u32>,
    pub notes: Vec<Note>,
}

/// Something that was begun at a byte and does not end.
pub struct Note {
    pub at: usize,
    pub what: &'static str,
}

impl Tokens {
    pub fn of(text: &str) -> Tokens {
        let mut tokens = Tokens::default();
        let mut at = 0;
        while at < text.len() {
            let (kind, len, odd) = first(&text[at..], tokens.kinds.last().copied());
            tokens.kinds.push(kind.number());
            tokens.lens.push(len as u32);
            tokens.notes.extend(odd.map(|what| Note { at, what }));
            at += len;
        }
        tokens
    }
}

/// A kind, how many bytes, and what is odd about it.
type Found = (Kind, usize, Option<&'static str>);

fn plain(kind: Kind, len: usize) -> Option<Found> {
    Some((kind, len, None))
}

/// The first token of a text that isn't empty.
fn first(text: &str, before: Option<u8>) -> Found {
    let after_dot = before == Some(Kind::Dot.number());
    trivia(text)
        .or_else(|| quoted(text))
        .or_else(|| number(text, after_dot))
        .or_else(|| word(text))
        .or_else(|| punctuation(text))
        .unwrap_or_else(|| (Kind::Other, text.chars().next().map_or(1, char::len_utf8), None))
}

/// How many bytes of the text's beginning are of a class.
fn run(text: &str, of: impl Fn(char) -> bool) -> usize {
    text.find(|c| !of(c)).unwrap_or(text.len())
}

fn is_word(c: char) -> bool {
    c.is_alphanumeric() || c == '_'
}

fn trivia(text: &str) -> Option<Found> {
    if text.starts_with("//") {
        return plain(Kind::Comment, run(text, |c| c != '\n'));
    }
    if let Some(inside) = text.strip_prefix("/*") {
        return match inside.find("*/") {
            Some(at) => plain(Kind::MultilineComment, at + 4),
            None => Some((Kind::MultilineComment, text.len(), Some("this comment does not end"))),
        };
    }
    let len = run(text, char::is_whitespace);
    if len == 0 {
        return None;
    }
    plain(Kind::Whitespace, len)
}

/// Strings, characters, templates and labels.
fn quoted(text: &str) -> Option<Found> {
    let (prefix, of_bytes) = match text.strip_prefix('b') {
        Some(rest) if rest.starts_with(['"', '\'']) => (1, true),
        _ => (0, false),
    };
    let kind = match (text[prefix..].chars().next()?, of_bytes) {
        ('"', false) => Kind::Str,
        ('"', true) => Kind::ByteStr,
        ('`', _) => Kind::TemplateString,
        ('\'', true) => Kind::Byte,
        ('\'', false) if is_char(&text[1..]) => Kind::Char,
        ('\'', false) => return label(text),
        _ => return None,
    };
    match closed(&text[prefix..]) {
        Some(len) => plain(kind, prefix + len),
        None => Some((Kind::Other, prefix + 1, Some("this quote is not closed"))),
    }
}

/// Bytes up to and with the quote that closes the one that a text begins with.
fn closed(text: &str) -> Option<usize> {
    let mut chars = text.char_indices();
    let (_, quote) = chars.next()?;
    while let Some((at, c)) = chars.next() {
        if c == quote {
            return Some(at + c.len_utf8());
        }
        if c == '\\' {
            chars.next();
        }
    }
    None
}

/// What follows a `'`: one character and another `'`, or an escape.
fn is_char(text: &str) -> bool {
    let mut chars = text.chars();
    match chars.next() {
        Some('\\') => true,
        Some(_) => chars.next() == Some('\''),
        None => false,
    }
}

fn label(text: &str) -> Option<Found> {
    match run(&text[1..], is_word) {
        0 => Some((Kind::Other, 1, Some("this quote is not closed"))),
        len => plain(Kind::Label, 1 + len),
    }
}

/// Digits and what is glued to them; a fraction, unless this is a field of a field as in `a.0.1`.
fn number(text: &str, after_dot: bool) -> Option<Found> {
    let begins = |text: &str| text.starts_with(|c: char| c.is_ascii_digit());
    if !begins(text) {
        return None;
    }
    let mut len = run(text, is_word);
    let fraction = text[len..].strip_prefix('.').is_some_and(begins);
    if fraction && !after_dot {
        len += 1 + run(&text[len + 1..], is_word);
    }
    let signed = text[len..].strip_prefix(['+', '-']).is_some_and(begins);
    if signed && !text.starts_with("0x") && text[..len].ends_with(['e', 'E']) {
        len += 1 + run(&text[len + 1..], is_word);
    }
    plain(Kind::Number, len)
}

fn word(text: &str) -> Option<Found> {
    let len = run(text, is_word);
    match &text[..len] {
        "" => None,
        word => plain(keyword(word).unwrap_or(Kind::Ident), len),
    }
}

/// A listed word is a keyword, unless it names a whole class of tokens.
fn keyword(word: &str) -> Option<Kind> {
    use Kind::{Byte, ByteStr, Char, Ident, Number, Str};
    let mut tokens = Kind::ALL.iter().copied().filter(|kind| kind.is_token());
    let kind = tokens.find(|kind| kind.name() == word)?;
    let is_class = matches!(kind, Ident | Number | Str | ByteStr | Char | Byte);
    let is_listed = word == "Self" || !word.starts_with(|c: char| c.is_ascii_uppercase());
    (!is_class && is_listed).then_some(kind)
}

/// The longest listed name that isn't a word.
fn punctuation(text: &str) -> Option<Found> {
    for (sign, kind) in [('«', Kind::OpenEmpty), ('»', Kind::CloseEmpty)] {
        if text.starts_with(sign) {
            return plain(kind, sign.len_utf8());
        }
    }
    let tokens = Kind::ALL.iter().copied().filter(|kind| kind.is_token());
    let fits = tokens.filter(|kind| {
        let spelling = spelling(*kind);
        !spelling.starts_with(is_word) && text.starts_with(spelling)
    });
    let longest = fits.max_by_key(|kind| spelling(*kind).len())?;
    plain(longest, spelling(longest).len())
}

/// How a token of the kind is written, where it is written in one way: brackets are listed in quotes.
pub fn spelling(kind: Kind) -> &'static str {
    match kind.name().as_bytes() {
        [b'\'', _, b'\''] => &kind.name()[1..2],
        _ => kind.name(),
    }
}

#[cfg(test)]
mod tests {
    use super::*;

    /// Every token kind can be written, and in the order of their numbers.
    #[test]
    fn all_kinds() {
        let all = "a::super crate self Self true false 1\"s\"b\"t\"'c'b'd' // e\n/* f */@()[]{},.;:=!-&*?'label#<>+/% \
                   == != <= >= && || << >> ^ | as is not += -= *= /= %= &= ^= |= <<= >>= .. ..= => _ «»`g` async await \
                   break const continue default else enum fn for if impl in let loop match mod move pub return select \
                   struct use while yield";
        let tokens = Tokens::of(all);
        assert_eq!(tokens.lens.iter().sum::<u32>() as usize, all.len());
        let trivia = Kind::Whitespace.number()..=Kind::MultilineComment.number();
        let written: Vec<u8> = tokens.kinds.iter().copied().filter(|k| !trivia.contains(k)).collect();
        let listed = Kind::ALL.iter().filter(|kind| kind.is_token() && !kind.is_trivia());
        assert_eq!(written, listed.map(|kind| kind.number()).collect::<Vec<u8>>());
        assert!(tokens.notes.is_empty());
    }

    fn pieces(text: &str) -> Vec<&str> {
        let mut at = 0;
        let cut = |len: &u32| {
            at += *len as usize;
            &text[at - *len as usize..at]
        };
        Tokens::of(text).lens.iter().map(cut).collect()
    }

    #[test]
    fn numbers() {
        assert_eq!(pieces("1.5+0xfe-1"), ["1.5", "+", "0xfe", "-", "1"]);
        assert_eq!(pieces("1..2"), ["1", "..", "2"]);
        assert_eq!(pieces("a.0.1"), ["a", ".", "0", ".", "1"]);
        assert_eq!(pieces("1e-5 1.5e+3u"), ["1e-5", " ", "1.5e+3u"]);
    }

    #[test]
    fn quotes() {
        assert_eq!(pieces(r#""a\"b" 'c'"#), [r#""a\"b""#, " ", "'c'"]);
        assert_eq!(pieces(r"'\'' '\\' 'l:"), [r"'\''", " ", r"'\\'", " ", "'l", ":"]);
        assert_eq!(pieces("'é' é"), ["'é'", " ", "é"]);
        for (text, at) in [("a \"b", 2), ("'", 0), ("a`b", 1), ("b'", 0), ("a /* b", 2), ("/*/", 0)] {
            let notes = Tokens::of(text).notes;
            assert_eq!(notes.iter().map(|note| note.at).collect::<Vec<_>>(), [at], "{text}");
        }
    }
}
