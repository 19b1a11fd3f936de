//! The tree as a picture: for `dot`, and as SVG.

use std::fmt::Write as _;

use krosstavel::{Kind, Node, Tree};

use crate::draw::{shown, written};
use crate::grouping;

/// A graph for `dot`, children in the order of the text. Trivia is left out.
pub fn dot(tree: &Tree, text: &str) -> String {
    let mut out = String::from("digraph tree {\n  graph [ordering=out];\n  node [shape=box, fontname=monospace];\n");
    let nodes = tree.nodes().filter(|node| !node.kind().is_trivia());
    for node in nodes {
        let (label, style) = if node.is_token() {
            (written(node, text), ", style=\"rounded,filled\", fillcolor=\"#eef4fb\"")
        } else {
            (node.kind().name().to_owned(), "")
        };
        let label = label.replace('\\', "\\\\").replace('"', "\\\"");
        let _ = writeln!(out, "  r{} [label=\"{label}\"{style}];", node.row());
        for child in shown(node, false) {
            let _ = writeln!(out, "  r{} -> r{};", node.row(), child.row());
        }
    }
    out + "}\n"
}

const CHARACTER: usize = 8;
const PAD: usize = 8;
const GAP: usize = 14;
const HEIGHT: usize = 24;
const LEVEL: usize = 50;
const MARGIN: usize = 20;

/// A box of the picture, and where it is; those below it stand in it.
struct Placed {
    label: String,
    class: &'static str,
    /// The middle.
    x: usize,
    width: usize,
    below: Vec<Placed>,
}

impl Placed {
    /// Lays a subtree out from the left edge 0; gives its right edge too. A box stands over the middle of those below it.
    fn of(node: Node, text: &str) -> (Placed, usize) {
        let label = if node.is_token() { written(node, text) } else { node.kind().name().to_owned() };
        let width = label.chars().count() * CHARACTER + 2 * PAD;
        let (mut below, end) = side_by_side(shown(node, false), text);
        // Where the box is wider than all below it, they begin further in.
        let inset = width.saturating_sub(end) / 2;
        below.iter_mut().for_each(|placed| placed.shift(inset));
        let x = match (below.first(), below.last()) {
            (Some(first), Some(last)) => ((first.x + last.x) / 2).max(width / 2),
            _ => width / 2,
        };
        let class = match node.kind() {
            _ if node.is_token() => "token",
            Kind::Error => "error",
            _ => "node",
        };
        let right = (x + width.div_ceil(2)).max(inset + end);
        (Placed { label, class, x, width, below }, right)
    }

    fn shift(&mut self, by: usize) {
        self.x += by;
        self.below.iter_mut().for_each(|placed| placed.shift(by));
    }

    fn depth(&self) -> usize {
        1 + self.below.iter().map(Placed::depth).max().unwrap_or(0)
    }

    /// Lines first, so that boxes lie over them.
    fn draw(&self, y: usize, lines: &mut String, boxes: &mut String) {
        for child in &self.below {
            let (from, to) = (y + HEIGHT, y + LEVEL);
            let middle = (from + to) / 2;
            let _ = writeln!(
                lines,
                r#"<path d="M{} {from}C{} {middle} {} {middle} {} {to}"/>"#,
                self.x, self.x, child.x, child.x
            );
            child.draw(y + LEVEL, lines, boxes);
        }
        let left = self.x - self.width / 2;
        let _ = writeln!(
            boxes,
            r#"<g class="{}"><rect x="{left}" y="{y}" width="{}" height="{HEIGHT}" rx="5"/><text x="{}" y="{}">{}</text></g>"#,
            self.class,
            self.width,
            self.x,
            y + 16,
            escaped(&self.label)
        );
    }
}

/// Subtrees from the left edge 0 on, and where the last ends.
fn side_by_side(nodes: Vec<Node>, text: &str) -> (Vec<Placed>, usize) {
    let mut all = Vec::new();
    let mut end = 0;
    for node in nodes {
        let left = if all.is_empty() { 0 } else { end + GAP };
        let (mut placed, right) = Placed::of(node, text);
        placed.shift(left);
        all.push(placed);
        end = left + right;
    }
    (all, end)
}

const STYLE: &str = "text{font:13px monospace;text-anchor:middle;fill:#1b2733}.title{text-anchor:start;font-size:14px}\
path{fill:none;stroke:#8fa3b5}.node rect{fill:#fff;stroke:#44617c}.token rect{fill:#e8f1fb;stroke:#a9c3de}\
.error rect{fill:#fde8e6;stroke:#c0392b}";

/// A picture that needs nothing from outside. Trivia is left out; the grouping stands above the tree.
pub fn svg(tree: &Tree, text: &str) -> String {
    let grouped = grouping::of(tree, text);
    let titles: Vec<&str> = grouped.lines().filter(|line| !line.is_empty()).collect();
    let (mut top, right) = Placed::of(tree.root(), text);
    top.shift(MARGIN);
    let from = MARGIN + titles.len() * 20 + if titles.is_empty() { 0 } else { 10 };
    let height = from + (top.depth() - 1) * LEVEL + HEIGHT + MARGIN;
    let longest = titles.iter().map(|title| title.chars().count() * 9).max().unwrap_or(0);
    let width = right.max(longest) + 2 * MARGIN;

    let mut out = format!(
        "<svg xmlns=\"http://www.w3.org/2000/svg\" width=\"{width}\" height=\"{height}\" viewBox=\"0 0 {width} {height}\">\n\
         <style>{STYLE}</style>\n<rect width=\"100%\" height=\"100%\" fill=\"#fff\"/>\n"
    );
    for (at, title) in titles.iter().enumerate() {
        let y = MARGIN + 14 + at * 20;
        let _ = writeln!(out, "<text class=\"title\" x=\"{MARGIN}\" y=\"{y}\">{}</text>", escaped(title));
    }
    let (mut lines, mut boxes) = (String::new(), String::new());
    top.draw(from, &mut lines, &mut boxes);
    out + &lines + &boxes + "</svg>\n"
}

fn escaped(text: &str) -> String {
    text.replace('&', "&amp;").replace('<', "&lt;").replace('>', "&gt;")
}
