//! A small lexer for tests and display only: it lets a test say `a == b && c`.
//! It is no part of what is compared, and knows just enough to write any token
//! kind: `«` and `»` are the empty delimiters, a text between backquotes is a
//! template, and any character that begins nothing else is Other.

use crate::kinds::{Kind, TOKENS};

/// Kinds and byte lengths of the tokens in a text.
pub fn tokens(text: &str) -> (Vec<u8>, Vec<u32>) {
    let mut kinds = Vec::new();
    let mut lens = Vec::new();
    let mut rest = text;

    while !rest.is_empty() {
        let (kind, len) = first(rest);
        kinds.push(kind.token_number());
        lens.push(len as u32);
        rest = &rest[len..];
    }

    (kinds, lens)
}

/// The first token of a text that isn't empty.
fn first(text: &str) -> (Kind, usize) {
    trivia(text)
        .or_else(|| quoted(text))
        .or_else(|| word(text))
        .or_else(|| punctuation(text))
        .unwrap_or_else(|| (Kind::Other, text.chars().next().map_or(1, char::len_utf8)))
}

/// How many bytes of the text's beginning are of a class.
fn run(text: &str, of: impl Fn(char) -> bool) -> usize {
    text.find(|c| !of(c)).unwrap_or(text.len())
}

fn trivia(text: &str) -> Option<(Kind, usize)> {
    if text.starts_with("//") {
        return Some((Kind::Comment, run(text, |c| c != '\n')));
    }
    if text.starts_with("/*") {
        let len = text.find("*/").map_or(text.len(), |at| at + 2);
        return Some((Kind::MultilineComment, len));
    }
    let len = run(text, char::is_whitespace);
    (len > 0).then_some((Kind::Whitespace, len))
}

/// Strings, characters, templates and labels.
fn quoted(text: &str) -> Option<(Kind, usize)> {
    let ends = |open: usize, quote: char| {
        let inside = &text[open..];
        inside.find(quote).map(|at| open + at + 1)
    };

    if text.starts_with("b\"") {
        return Some((K![bytestr], ends(2, '"')?));
    }
    if text.starts_with("b'") {
        return Some((K![byte], ends(2, '\'')?));
    }
    match text.chars().next()? {
        '"' => Some((K![str], ends(1, '"')?)),
        '`' => Some((Kind::TemplateString, ends(1, '`')?)),
        '\'' if text[1..].chars().nth(1) == Some('\'') => Some((K![char], ends(1, '\'')?)),
        '\'' => Some((K!['label], 1 + run(&text[1..], is_word))),
        _ => None,
    }
}

fn is_word(c: char) -> bool {
    c.is_ascii_alphanumeric() || c == '_'
}

/// Numbers, keywords and identifiers.
fn word(text: &str) -> Option<(Kind, usize)> {
    let len = run(text, is_word);
    let word = &text[..len];
    match word.chars().next()? {
        c if c.is_ascii_digit() => Some((K![number], len)),
        _ => Some((keyword(word).unwrap_or(K![ident]), len)),
    }
}

/// A listed word is a keyword, unless it names a whole class of tokens.
fn keyword(word: &str) -> Option<Kind> {
    let (number, _) = TOKENS.iter().find(|(_, name)| *name == word)?;
    let kind = Kind::of_token(*number);
    let is_class = matches!(
        kind,
        K![ident] | K![number] | K![str] | K![bytestr] | K![char] | K![byte]
    );
    let is_word = word == "Self" || !word.starts_with(|c: char| c.is_ascii_uppercase());
    (!is_class && is_word).then_some(kind)
}

/// The longest listed name that isn't a word.
fn punctuation(text: &str) -> Option<(Kind, usize)> {
    if text.starts_with('«') {
        return Some((Kind::Open(crate::kinds::Delimiter::Empty), '«'.len_utf8()));
    }
    if text.starts_with('»') {
        return Some((Kind::Close(crate::kinds::Delimiter::Empty), '»'.len_utf8()));
    }

    let mut longest = None;
    for (number, name) in TOKENS {
        let name = spelling(name);
        let longer = longest.is_none_or(|(_, len)| name.len() > len);
        if !name.starts_with(is_word) && text.starts_with(name) && longer {
            longest = Some((Kind::of_token(*number), name.len()));
        }
    }
    longest
}

/// Brackets are listed in quotes.
fn spelling(name: &str) -> &str {
    match name.as_bytes() {
        [b'\'', _, b'\''] => &name[1..2],
        _ => name,
    }
}
