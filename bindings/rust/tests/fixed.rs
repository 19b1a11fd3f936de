//! The oracle's fixed answers through the bindings: number, place, rows, and the tree as the view walks it. No Rust of the grammar is needed for it.

mod asked;

use asked::{Asked, CASES};
use krosstavel::{Entry, Kind, Node, Tree};

/// A line of the list.
struct Case {
    asked: Asked,
    number: u32,
    place: usize,
    rows: usize,
    /// Of each row, for a token 0, else kind and back.
    shape: Vec<u32>,
}

impl Case {
    fn read(line: &str) -> Case {
        let mut numbers = asked::numbers(line);
        let asked = Asked::read(&mut numbers);
        let mut next = || numbers.next().unwrap();
        let (number, place, rows) = (next(), next() as usize, next() as usize);
        Case { asked, number, place, rows, shape: numbers.collect() }
    }
}

fn shape(tree: &Tree) -> Vec<u32> {
    let of = |node: Node| if node.is_token() { vec![0] } else { vec![node.number(), node.back() as u32] };
    tree.nodes().flat_map(of).collect()
}

/// Every row but the last is a child of its parent, once, and children stand side by side in the order of the text.
fn check_walk(tree: &Tree) {
    let mut seen = vec![0; tree.len()];
    for node in tree.nodes() {
        let children: Vec<Node> = node.children().collect();
        let mut at = node.text().start;
        for child in &children {
            assert_eq!(child.parent(), Some(node));
            assert_eq!(child.text().start, at);
            at = child.text().end;
            seen[child.row()] += 1;
        }
        assert!(node.is_token() || at == node.text().end);
        assert_eq!(children.iter().map(|child| child.back() + 1).sum::<usize>(), node.back());
    }
    let top = seen.pop();
    assert_eq!(top, Some(0));
    assert_eq!(tree.root().parent(), None);
    assert!(seen.iter().all(|times| *times == 1));
}

fn check(case: &Case) {
    let mut table = vec![0xa5a5_a5a5; case.asked.elements];
    match case.asked.parse(&mut table) {
        Ok(tree) => {
            assert_eq!((case.number, case.rows), (0, tree.len()));
            assert_eq!(case.shape, shape(&tree));
            assert_eq!(tree.root().kind(), Kind::Root);
            check_walk(&tree);
            let used = tree.len() * krosstavel::ROW;
            assert!(table[used..].iter().all(|element| *element == 0));
        }
        Err(refusal) => {
            assert_eq!((case.number, case.place), (refusal.number(), refusal.place()));
            let before = case.asked.lens.iter().take(case.place).map(|len| u64::from(*len)).sum::<u64>();
            assert_eq!(refusal.bytes().map(|bytes| bytes.start), (case.number > 3).then_some(before));
            assert!(table.iter().all(|element| *element == 0));
        }
    }
}

#[test]
fn as_the_list_says() {
    assert!(CASES.lines().count() > 2000);
    for line in CASES.lines() {
        check(&Case::read(line));
    }
}

#[test]
fn tokens_without_a_kind_are_other_and_keep_their_number() {
    let mut table = [0; 16];
    let tree = Entry::Root.parse(&[120], &[1], &mut table, 256).unwrap();
    let token = tree.get(0).unwrap();
    assert_eq!((token.number(), token.kind()), (120, Kind::Other));
    assert_eq!(format!("{tree:?}"), "Root(Error(Error(120)))");
    assert_eq!(tree.get(tree.len()), None);
}

#[test]
fn kinds_go_both_ways() {
    for kind in Kind::ALL {
        assert_eq!(Kind::of_number(kind.number().into()), Some(*kind));
    }
    assert_eq!(Kind::of_number(0), None);
    assert_eq!(Kind::of_number(256 + 1), None);
}

/// The archive that is linked tells for which processor it was built: this one.
#[test]
fn the_build_is_told() {
    assert!(krosstavel::BUILD.starts_with(std::env::consts::ARCH), "{}", krosstavel::BUILD);
}
