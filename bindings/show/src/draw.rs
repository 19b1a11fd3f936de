//! The tree with lines, and the rows as a table.

use std::fmt::Write as _;

use krosstavel::{Kind, Node, Tree};

use crate::lexer::spelling;

/// The tree, a node a line; a node over one token has it on its own line. Whitespace and comments are left out unless asked for.
pub fn tree(tree: &Tree, text: &str, trivia: bool) -> String {
    let mut out = String::new();
    below(tree.root(), text, trivia, "", &mut out);
    out
}

/// A node's own line, after which come those below it, each under a margin.
fn below(node: Node, text: &str, trivia: bool, margin: &str, out: &mut String) {
    let children = shown(node, trivia);
    match children.as_slice() {
        [] if !node.is_token() => *out += &format!("{} (empty)\n", label(node, text)),
        [token] if token.is_token() => *out += &format!("{} ─ {}\n", label(node, text), label(*token, text)),
        children => {
            *out += &format!("{}\n", label(node, text));
            for (at, child) in children.iter().enumerate() {
                let (branch, bar) = if at + 1 == children.len() { ("└─ ", "   ") } else { ("├─ ", "│  ") };
                *out += margin;
                *out += branch;
                below(*child, text, trivia, &format!("{margin}{bar}"), out);
            }
        }
    }
}

/// What stands below a node, in a picture that has or lacks trivia.
pub fn shown<'t>(node: Node<'t>, trivia: bool) -> Vec<Node<'t>> {
    let keep = |child: &Node| trivia || !child.kind().is_trivia();
    node.children().filter(keep).collect()
}

/// A node's kind, or a token's text behind its kind where the two differ.
pub fn label(node: Node, text: &str) -> String {
    let kind = node.kind();
    if !node.is_token() {
        return kind.name().to_owned();
    }
    let written = written(node, text);
    if spelling(kind) == written {
        written
    } else {
        format!("{} {written}", kind.name())
    }
}

/// A token's text on one line.
pub fn written(node: Node, text: &str) -> String {
    let text = &text[node.text()];
    match node.kind() {
        Kind::Whitespace => format!("{text:?}"),
        _ => text.chars().flat_map(visible).collect(),
    }
}

/// Control characters as Rust writes them.
fn visible(c: char) -> Vec<char> {
    if c.is_control() {
        c.escape_default().collect()
    } else {
        vec![c]
    }
}

/// The table's rows as they stand, and what they are.
pub fn rows(tree: &Tree, text: &str) -> String {
    let mut out = format!("{:>5} {:>5} {:>5} {:>6} {:>6}\n", "row", "kind", "back", "start", "length");
    for (row, [kind, back, start, length]) in tree.rows().iter().enumerate() {
        let what = tree.get(row).map(|node| label(node, text)).unwrap_or_default();
        let _ = writeln!(out, "{row:>5} {kind:>5} {back:>5} {start:>6} {length:>6}  {what}");
    }
    out
}
