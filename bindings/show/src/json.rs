//! The answer for tools.

use std::fmt::Write as _;

use krosstavel::{Entry, Kind, Refusal, Tree};

use crate::parsed::Parsed;

/// One object: the entry, the answer, the tokens, and the rows of a tree.
pub fn of(parsed: &Parsed) -> String {
    let entry = match parsed.entry {
        Entry::Root => "root",
        Entry::Exprs(_) => "exprs",
        Entry::Format => "format",
    };
    let answer = match &parsed.outcome {
        Ok(tree) => format!(r#""number": 0, "place": 0, "rows": {}"#, tree.len()),
        Err(refusal) => refused(refusal),
    };
    let rows = match &parsed.outcome {
        Ok(tree) => rows(tree, parsed.text),
        Err(_) => String::new(),
    };
    format!(
        "{{\n  \"entry\": \"{entry}\",\n  \"answer\": {{{answer}}},\n  \"tokens\": [{}],\n  \"rows\": [{rows}]\n}}\n",
        tokens(parsed)
    )
}

fn refused(refusal: &Refusal) -> String {
    let bytes = refusal.bytes();
    let bytes = bytes.map_or("null".to_owned(), |bytes| format!("[{}, {}]", bytes.start, bytes.end));
    format!(
        r#""number": {}, "place": {}, "rows": 0, "meaning": {}, "bytes": {bytes}"#,
        refusal.number(),
        refusal.place(),
        string(refusal.reason().meaning())
    )
}

fn tokens(parsed: &Parsed) -> String {
    let mut start = 0;
    let lists = parsed.tokens.kinds.iter().zip(&parsed.tokens.lens);
    lines(lists.map(|(kind, length)| {
        let text = &parsed.text[start..start + *length as usize];
        let line = format!(
            r#"{{"kind": {kind}, "name": {}, "start": {start}, "length": {length}, "text": {}}}"#,
            name(u32::from(*kind)),
            string(text)
        );
        start += *length as usize;
        line
    }))
}

fn rows(tree: &Tree, text: &str) -> String {
    lines(tree.nodes().zip(parents(tree)).map(|(node, parent)| {
        let [kind, back, start, length] = tree.rows()[node.row()];
        let parent = parent.map_or("null".to_owned(), |row| row.to_string());
        let name = name(kind);
        let text = string(&text[node.text()]);
        format!(
            r#"{{"kind": {kind}, "back": {back}, "start": {start}, "length": {length}, "name": {name}, "parent": {parent}, "text": {text}}}"#
        )
    }))
}

/// Every row's parent, in one pass from the top.
fn parents(tree: &Tree) -> Vec<Option<usize>> {
    let mut parents = vec![None; tree.len()];
    for node in tree.nodes().rev() {
        for child in node.children_from_last() {
            parents[child.row()] = Some(node.row());
        }
    }
    parents
}

/// The elements of a list, each on a line of its own.
fn lines(elements: impl Iterator<Item = String>) -> String {
    let elements: Vec<String> = elements.map(|element| format!("\n    {element}")).collect();
    match elements.as_slice() {
        [] => String::new(),
        some => some.join(",") + "\n  ",
    }
}

fn name(kind: u32) -> String {
    string(Kind::of_number(kind).unwrap_or(Kind::Other).name())
}

fn string(text: &str) -> String {
    let mut out = String::from('"');
    for c in text.chars() {
        match c {
            '"' | '\\' => out.extend(['\\', c]),
            '\n' => out += "\\n",
            '\t' => out += "\\t",
            c if c.is_control() => {
                let _ = write!(out, "\\u{:04x}", u32::from(c));
            }
            c => out.push(c),
        }
    }
    out.push('"');
    out
}
