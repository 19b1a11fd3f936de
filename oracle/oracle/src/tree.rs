//! Reading a table back: as text for people, and as a check that its rows hold
//! together.

use crate::kinds;
use crate::ROW;

/// One row of a table.
#[derive(Debug, Clone, Copy, PartialEq, Eq)]
pub struct Row {
    pub kind: u32,
    pub back: u32,
    pub start: u32,
    pub length: u32,
}

impl Row {
    /// Tokens are numbered below the nodes.
    pub fn is_leaf(&self) -> bool {
        self.kind < 128
    }
}

/// The first rows of a table.
pub fn rows(table: &[u32], count: u32) -> Vec<Row> {
    let rows = table.chunks_exact(ROW).take(count as usize);
    rows.map(|row| Row {
        kind: row[0],
        back: row[1],
        start: row[2],
        length: row[3],
    })
    .collect()
}

/// The tree as `Root(Expr(Path(ident)))`; an unassigned kind shows its number.
pub fn show(rows: &[Row]) -> String {
    let mut pieces: Vec<(usize, String)> = Vec::new();

    for (at, row) in rows.iter().enumerate() {
        let name = match kinds::name(row.kind as u8) {
            "Other" if row.kind != 17 => row.kind.to_string(),
            name => name.to_owned(),
        };
        if row.is_leaf() {
            pieces.push((at, name));
            continue;
        }
        let first = at - row.back as usize;
        let from = pieces.iter().position(|(piece, _)| *piece >= first);
        let inside = pieces.split_off(from.unwrap_or(pieces.len()));
        let inside: Vec<String> = inside.into_iter().map(|(_, text)| text).collect();
        pieces.push((first, format!("{name}({})", inside.join(" "))));
    }

    let pieces: Vec<String> = pieces.into_iter().map(|(_, text)| text).collect();
    pieces.join(" ")
}

/// What is wrong with the rows of an accepted parse of these tokens, if
/// anything. It is worked out from the rows alone: the leaves must be all
/// tokens in order, and each node's start and length follow from its leaves.
pub fn fault(rows: &[Row], kinds: &[u8], lens: &[u32]) -> Option<String> {
    let mut tokens = kinds.iter().zip(lens);
    let mut byte = 0;

    for (at, row) in rows.iter().enumerate() {
        let want = if row.is_leaf() {
            match tokens.next() {
                Some((kind, length)) => leaf(*kind, byte, *length),
                None => return Some(format!("row {at} is a token too many")),
            }
        } else {
            match node(rows, at, byte) {
                Some(row) => row,
                None => return Some(format!("row {at} reaches into the middle of a subtree")),
            }
        };
        if *row != want {
            return Some(format!("row {at} is {row:?}, not {want:?}"));
        }
        if row.is_leaf() {
            byte += row.length;
        }
    }

    let top = rows.last().map(|row| row.back as usize + 1);
    match (tokens.next(), top) {
        (Some(_), _) => Some("tokens are missing".to_owned()),
        (None, Some(top)) if top == rows.len() => None,
        _ => Some("the last row is not over all others".to_owned()),
    }
}

fn leaf(kind: u8, start: u32, length: u32) -> Row {
    Row {
        kind: kind.into(),
        back: 0,
        start,
        length,
    }
}

/// What the node in row `at` must be, going by its kind, its back and the rows
/// before it; nothing if it isn't over whole subtrees.
fn node(rows: &[Row], at: usize, byte: u32) -> Option<Row> {
    let Row { kind, back, .. } = rows[at];
    let first = at.checked_sub(back as usize)?;

    let mut child = at;
    while child > first {
        child = (child - 1).checked_sub(rows[child - 1].back as usize)?;
    }
    if child != first {
        return None;
    }

    let leaves = rows[first..at].iter().filter(|row| row.is_leaf());
    Some(Row {
        kind,
        back,
        start: if back == 0 { byte } else { rows[first].start },
        length: leaves.map(|row| row.length).sum(),
    })
}
