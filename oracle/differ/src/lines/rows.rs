//! The table that the demand wants for a line: the rows of its grouping.

use oracle::kinds::Kind;
use oracle::ROW;

use super::group::Group;
use super::line::{is_literal, Line};

/// Rows as they are written, and how far in the tokens.
pub struct Rows<'a> {
    line: &'a Line,
    kinds: &'a [u8],
    lens: &'a [u32],
    tokens: usize,
    byte: u32,
    rows: Vec<[u32; ROW]>,
}

impl<'a> Rows<'a> {
    /// A line's tokens with its grouping: Root over an Expr.
    pub fn of(line: &'a Line, kinds: &'a [u8], lens: &'a [u32], group: &Group) -> Vec<u32> {
        let mut rows = Rows {
            line,
            kinds,
            lens,
            tokens: 0,
            byte: 0,
            rows: Vec::new(),
        };
        rows.leaves(line.operands[0]);
        let expression = rows.rows.len();
        rows.group(0, group);
        rows.node(Kind::Expr, expression);
        rows.node(Kind::Root, 0);
        rows.rows.concat()
    }

    /// A group from an operand on; without operators it is the operand alone.
    fn group(&mut self, operand: usize, group: &Group) {
        let begins = self.rows.len();
        self.operand(operand);
        for own in &group.0 {
            let sign = self.rows.len();
            self.leaves(self.line.operators[own.operator].end);
            self.node(Kind::ExprOperator, sign);
            self.leaves(self.line.operands[own.operator + 1]);
            self.group(own.operator + 1, &own.nested);
        }
        if !group.0.is_empty() {
            self.node(Kind::ExprBinary, begins);
        }
    }

    /// An operand, and the trivia after it.
    fn operand(&mut self, operand: usize) {
        let at = self.line.operands[operand];
        let begins = self.rows.len();
        self.leaves(at + 1);
        let node = match is_literal(self.kinds[at]) {
            true => Kind::Lit,
            false => Kind::Path,
        };
        self.node(node, begins);
        let next = self.line.operators.get(operand);
        self.leaves(next.map_or(self.kinds.len(), |operator| operator.start));
    }

    /// Every token before that one which is not yet written.
    fn leaves(&mut self, to: usize) {
        for at in self.tokens..to {
            let (kind, len) = (self.kinds[at].into(), self.lens[at]);
            self.rows.push([kind, 0, self.byte, len]);
            self.byte += len;
        }
        self.tokens = to;
    }

    /// A node over the rows since that one, which are never none.
    fn node(&mut self, kind: Kind, since: usize) {
        let back = (self.rows.len() - since) as u32;
        let start = self.rows[since][2];
        let kind = kind.node_number().into();
        self.rows.push([kind, back, start, self.byte - start]);
    }
}
