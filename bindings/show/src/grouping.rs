//! What an operator line means: each operation in parentheses of its own.

use krosstavel::{Kind, Node, Tree};

/// A line for each top-level piece that holds an operation.
pub fn of(tree: &Tree, text: &str) -> String {
    let mut lines = String::new();
    for piece in tree.root().children().filter(|piece| has_operation(*piece)) {
        let grouped = Grouping { text }.text_of(piece);
        lines += &format!("grouped: {}\n", grouped.trim());
    }
    if !lines.is_empty() {
        lines.push('\n');
    }
    lines
}

fn has_operation(node: Node) -> bool {
    matches!(node.kind(), Kind::ExprBinary | Kind::ExprAssign) || node.children_from_last().any(has_operation)
}

/// Nodes that reach as far as an operator lets them: below one of these, another has parentheses round it.
fn is_operation(kind: Kind) -> bool {
    use Kind::*;
    let is_range = matches!(kind, ExprRange | ExprRangeFrom | ExprRangeInclusive | ExprRangeTo | ExprRangeToInclusive);
    is_range || matches!(kind, ExprBinary | ExprAssign | ExprClosure | ExprReturn | ExprBreak | ExprYield)
}

/// What stands below a node, trivia left out.
fn significant<'t>(node: Node<'t>) -> Vec<Node<'t>> {
    node.children().filter(|child| !child.kind().is_trivia()).collect()
}

/// A space where a node ends in trivia.
fn space_after(node: Node) -> &'static str {
    match node.children_from_last().next() {
        Some(last) if last.kind().is_trivia() => " ",
        Some(last) => space_after(last),
        None => "",
    }
}

struct Grouping<'t> {
    text: &'t str,
}

impl Grouping<'_> {
    /// A node's text on one line. Comments are left out.
    fn text_of(&self, node: Node) -> String {
        match node.kind() {
            Kind::ExprBinary => self.binary(node) + space_after(node),
            kind if kind.is_trivia() => " ".to_owned(),
            _ if node.is_token() => self.text[node.text()].to_owned(),
            _ => self.pieces(node),
        }
    }

    /// Operands and operators in turn. Those of one node never get tighter, so they are taken from left to right.
    fn binary(&self, node: Node) -> String {
        let parts = significant(node);
        let Some((first, rest)) = parts.split_first() else {
            return String::new();
        };
        let operations = rest.len() / 2;
        let mut out = "(".repeat(operations.saturating_sub(1)) + &self.operand(*first);
        for (at, operation) in rest.chunks(2).enumerate() {
            for part in operation {
                out.push(' ');
                out += &self.operand(*part);
            }
            if at + 1 < operations {
                out.push(')');
            }
        }
        out
    }

    /// What an operator has beside it: parentheses if it is an operation itself.
    fn operand(&self, node: Node) -> String {
        let inside = significant(node);
        match (node.kind(), inside.as_slice()) {
            // Only a wrapper.
            (Kind::Expr, [only]) => self.operand(*only),
            (kind, [_, _, ..]) if is_operation(kind) => format!("({})", self.text_of(node).trim()),
            _ => self.text_of(node).trim().to_owned(),
        }
    }

    /// Any other node: its pieces as they stand, a space where there was trivia.
    fn pieces(&self, node: Node) -> String {
        let takes_operands = is_operation(node.kind()) || matches!(node.kind(), Kind::ExprUnary | Kind::ExprChain);
        let mut out = String::new();
        for child in node.children() {
            let piece = if takes_operands && !child.is_token() {
                self.operand(child) + space_after(child)
            } else {
                self.text_of(child)
            };
            let double = out.ends_with(' ') && piece == " ";
            out += if double { "" } else { &piece };
        }
        out
    }
}

#[cfg(test)]
mod tests {
    use super::*;
    use crate::lexer::Tokens;
    use krosstavel::{parse_exprs, room};

    /// An operator of each binding of document 01, two where they differ in more than the name, and whether two may follow one another.
    const OPERATORS: [(&str, u32, bool); 14] = [
        ("as", 13, false),
        ("is", 13, false),
        ("is not", 13, false),
        ("*", 11, true),
        ("+", 10, true),
        ("-", 10, true),
        ("<<", 9, true),
        ("&", 8, true),
        ("^", 7, true),
        ("|", 6, true),
        ("==", 5, false),
        ("<", 5, false),
        ("&&", 4, true),
        ("||", 3, true),
    ];

    /// What a guard is grouped as; none if it is refused.
    fn shown(text: &str) -> Option<String> {
        let Tokens { kinds, lens, .. } = Tokens::of(text);
        let mut table = vec![0; room(kinds.len())];
        let tree = parse_exprs(&kinds, &lens, &mut table, Kind::Comma, 256).ok()?;
        let line = of(&tree, text);
        Some(line.trim_end().strip_prefix("grouped: ")?.to_owned())
    }

    /// The same by the textbook: operands a, b, .. with the operators from `at` on that bind at least so tightly. Gives the text and whether it is
    /// an operation.
    fn climbed(line: &[usize], at: &mut usize, least: u32) -> Option<(String, bool)> {
        let round = |(text, operation): (String, bool)| if operation { format!("({text})") } else { text };
        let mut left = (char::from(b'a' + *at as u8).to_string(), false);
        let mut last = None;
        while let Some((sign, binding, associative)) = line.get(*at).map(|number| OPERATORS[*number]) {
            if binding < least {
                break;
            }
            if last == Some(binding) && !associative {
                return None;
            }
            last = Some(binding);
            *at += 1;
            let right = climbed(line, at, binding + 1)?;
            left = (format!("{} {sign} {}", round(left), round(right)), true);
        }
        Some(left)
    }

    /// Every line of four operators, also with parentheses already in it: then grouping changes nothing.
    #[test]
    fn as_the_textbook_groups() {
        let count = OPERATORS.len();
        let (mut grouped, mut refused) = (0, 0);
        for number in 0..count.pow(4) {
            let line: Vec<usize> = (0..4).map(|at| number / count.pow(at) % count).collect();
            let sign = |at: usize| OPERATORS[line[at]].0;
            let text = format!("a {} b {} c {} d {} e", sign(0), sign(1), sign(2), sign(3));
            let want = climbed(&line, &mut 0, 0).map(|(text, _)| text);
            let got = shown(&text);
            assert_eq!(got, want, "{text}");
            match got {
                Some(got) => {
                    assert_eq!(shown(&got).as_ref(), Some(&got), "{text}");
                    grouped += 1;
                }
                None => refused += 1,
            }
        }
        assert!(grouped > 10_000 && refused > 1_000, "{grouped} {refused}");
    }

    #[test]
    fn other_operations() {
        for (text, want) in [
            ("a + b = c", "a + (b = c)"),
            ("a = b + c = d", "a = (b + (c = d))"),
            ("a += b", "a += b"),
            ("x = |y| y + 1", "x = (|y| (y + 1))"),
            ("a..b + c", "a..(b + c)"),
            ("!a.b && -c", "!a.b && -c"),
            ("f(a + b * c)[d+e*f]", "f(a + (b * c))[d + (e * f)]"),
            ("a /* x */ +\n b // y\n * c", "a + (b * c)"),
            ("return a + b", "return (a + b)"),
            ("\"a  b\" == c", "\"a  b\" == c"),
        ] {
            assert_eq!(shown(text).as_deref(), Some(want), "{text}");
        }
    }
}
