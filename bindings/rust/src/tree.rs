//! A view of the rows that an accepted call left in the table.

use std::fmt;
use std::iter::FusedIterator;
use std::ops::Range;

use crate::Kind;

/// Elements of the table that a row has: kind, back, start byte, byte length.
pub const ROW: usize = 4;

/// The rows of an accepted parse. A node's row comes after all rows of its subtree; the last row is the top.
#[derive(Clone, Copy, PartialEq, Eq)]
pub struct Tree<'t> {
    rows: &'t [[u32; ROW]],
}

impl<'t> Tree<'t> {
    /// The first rows of a table.
    pub(crate) fn new(table: &'t [u32], rows: u32) -> Tree<'t> {
        let (all, _odd) = table.as_chunks::<ROW>();
        Tree { rows: &all[..rows as usize] }
    }

    /// The rows as they stand in the table: kind, back, start byte, byte length.
    pub fn rows(&self) -> &'t [[u32; ROW]] {
        self.rows
    }

    /// How many rows there are: one at least, the top.
    #[allow(clippy::len_without_is_empty)]
    pub fn len(&self) -> usize {
        self.rows.len()
    }

    /// The node or leaf in a row.
    pub fn get(&self, row: usize) -> Option<Node<'t>> {
        let tree = *self;
        (row < self.len()).then_some(Node { tree, row })
    }

    /// The top: the Root node, in the last row.
    pub fn root(&self) -> Node<'t> {
        let tree = *self;
        let row = self.len() - 1;
        Node { tree, row }
    }

    /// Every node and leaf in the order of the rows: each after all below it.
    pub fn nodes(&self) -> impl DoubleEndedIterator<Item = Node<'t>> + ExactSizeIterator + 't {
        let tree = *self;
        (0..tree.len()).map(move |row| Node { tree, row })
    }
}

impl fmt::Debug for Tree<'_> {
    fn fmt(&self, f: &mut fmt::Formatter<'_>) -> fmt::Result {
        fmt::Debug::fmt(&self.root(), f)
    }
}

/// A row of a tree: a node, or a token, which is a leaf.
#[derive(Clone, Copy)]
pub struct Node<'t> {
    tree: Tree<'t>,
    row: usize,
}

/// The same row of the same table.
impl PartialEq for Node<'_> {
    fn eq(&self, other: &Node<'_>) -> bool {
        std::ptr::eq(self.tree.rows, other.tree.rows) && self.row == other.row
    }
}

impl Eq for Node<'_> {}

impl<'t> Node<'t> {
    /// The row's number, from 0.
    pub fn row(&self) -> usize {
        self.row
    }

    fn element(&self, at: usize) -> u32 {
        self.tree.rows[self.row][at]
    }

    /// The kind; [`Kind::Other`] for a token whose number no kind has.
    pub fn kind(&self) -> Kind {
        Kind::of_number(self.number()).unwrap_or(Kind::Other)
    }

    /// The kind's number as it stands in the row.
    pub fn number(&self) -> u32 {
        self.element(0)
    }

    /// How many rows the subtree has, this one left out.
    pub fn back(&self) -> usize {
        self.element(1) as usize
    }

    /// The bytes that it covers, counted from the first token's beginning.
    pub fn text(&self) -> Range<usize> {
        let start = self.element(2) as usize;
        start..start + self.element(3) as usize
    }

    /// A token, trivia included. Nodes may be empty, so that they have nothing below them either.
    pub fn is_token(&self) -> bool {
        self.number() < 128
    }

    /// The first row of the subtree. (Where a table was not written by the parser it could reach too far: then as far as there are rows.)
    fn first(&self) -> usize {
        self.row.saturating_sub(self.back())
    }

    /// What stands directly below, the last first. It takes no memory and steps over each subtree at once.
    pub fn children_from_last(&self) -> FromLast<'t> {
        FromLast { tree: self.tree, first: self.first(), end: self.row }
    }

    /// What stands directly below, in the order of the text.
    pub fn children(&self) -> impl DoubleEndedIterator<Item = Node<'t>> + ExactSizeIterator + 't {
        let mut children: Vec<Node<'t>> = self.children_from_last().collect();
        children.reverse();
        children.into_iter()
    }

    /// The node that it stands directly below; the top has none. It looks at the rows from here to there.
    pub fn parent(&self) -> Option<Node<'t>> {
        let tree = self.tree;
        let after = (self.row + 1..tree.len()).map(|row| Node { tree, row });
        let mut over = after.filter(|node| node.first() <= self.row);
        over.next()
    }
}

/// The tree below as `ExprBinary(Path(ident) ..)`.
impl fmt::Debug for Node<'_> {
    fn fmt(&self, f: &mut fmt::Formatter<'_>) -> fmt::Result {
        match Kind::of_number(self.number()) {
            Some(kind) => f.write_str(kind.name())?,
            None => write!(f, "{}", self.number())?,
        }
        if self.is_token() {
            return Ok(());
        }
        f.write_str("(")?;
        for (at, child) in self.children().enumerate() {
            f.write_str(if at == 0 { "" } else { " " })?;
            child.fmt(f)?;
        }
        f.write_str(")")
    }
}

/// The children of a node, the last first.
#[derive(Clone)]
pub struct FromLast<'t> {
    tree: Tree<'t>,
    first: usize,
    /// The row after the next child's.
    end: usize,
}

impl<'t> Iterator for FromLast<'t> {
    type Item = Node<'t>;

    fn next(&mut self) -> Option<Node<'t>> {
        if self.end <= self.first {
            return None;
        }
        let child = Node { tree: self.tree, row: self.end - 1 };
        self.end = child.first();
        Some(child)
    }
}

impl FusedIterator for FromLast<'_> {}
