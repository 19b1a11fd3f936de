//! Groups of a line's operators, straight from the demand's sentence: every
//! grouping is tried. Nothing here climbs over bindings, as the grammar does.

use std::ops::Range;
use std::sync::LazyLock;

use super::line::Binding;

/// A group: it starts with a plain operand, and these are its own operators. None
/// means one operand, without a group.
#[derive(Debug, Clone, PartialEq, Eq)]
pub struct Group(pub Vec<Own>);

/// One of a group's own operators, by its number in the line, and what follows
/// it: a plain operand, or a nested group that starts with that operand.
#[derive(Debug, Clone, PartialEq, Eq)]
pub struct Own {
    pub operator: usize,
    pub nested: Group,
}

/// Every grouping of these operators, valid or not.
pub fn every(operators: Range<usize>) -> Vec<Group> {
    let Range { start, end } = operators;
    if start == end {
        return vec![Group(Vec::new())];
    }
    let mut found = Vec::new();
    // The first operator is the group's own; up to `next` they are nested after it.
    for next in start + 1..=end {
        let after = every(next..end);
        for nested in every(start + 1..next) {
            found.extend(after.iter().map(|rest| own_first(start, &nested, rest)));
        }
    }
    found
}

fn own_first(operator: usize, nested: &Group, rest: &Group) -> Group {
    let nested = nested.clone();
    let first = Own { operator, nested };
    Group([vec![first], rest.0.clone()].concat())
}

impl Group {
    /// The sentence: its own operators never bind tighter from left to right,
    /// equal neighbours there are associative, and each nested group binds tighter
    /// throughout than the operator that it follows.
    pub fn is_valid(&self, line: &[Binding]) -> bool {
        let neighbours = self.0.windows(2);
        let mut pairs = neighbours.map(|two| (line[two[0].operator], line[two[1].operator]));
        let in_order = pairs.all(|(left, right)| may_follow(left, right));
        let nests = |own: &Own| {
            let tighter = |operator: usize| line[operator].is_tighter_than(line[own.operator]);
            own.nested.every_operator(&tighter) && own.nested.is_valid(line)
        };
        in_order && self.0.iter().all(nests)
    }

    /// A test holds of every operator in it, those of nested groups too.
    fn every_operator(&self, test: &dyn Fn(usize) -> bool) -> bool {
        let holds = |own: &Own| test(own.operator) && own.nested.every_operator(test);
        self.0.iter().all(holds)
    }
}

fn may_follow(left: Binding, right: Binding) -> bool {
    !right.is_tighter_than(left) && (right != left || right.associative)
}

/// How many valid groupings a line has (no more than two are counted), and one.
#[derive(Debug, PartialEq, Eq)]
pub struct Found {
    pub count: usize,
    pub group: Option<Group>,
}

/// The operators of the longest line of which every grouping is tried.
pub const SHORT: usize = 5;

/// Every grouping of so many operators.
static GROUPINGS: LazyLock<[Vec<Group>; SHORT + 1]> =
    LazyLock::new(|| std::array::from_fn(|length| every(0..length)));

/// Looks through every grouping.
pub fn by_trying_all(line: &[Binding]) -> Found {
    let all = GROUPINGS[line.len()].iter();
    let valid: Vec<&Group> = all.filter(|group| group.is_valid(line)).collect();
    Found {
        count: valid.len().min(2),
        group: valid.first().map(|group| (*group).clone()),
    }
}

/// Counts them for every range of operators, the shorter ranges first: a line of
/// 300 operators has too many groupings to try each.
pub fn by_ranges(line: &[Binding]) -> Found {
    let ways = Ways::of(line);
    Found {
        count: ways.count[0][line.len()].into(),
        group: ways.one(0..line.len()),
    }
}

/// How many valid groups have exactly the operators of a range, up to two.
struct Ways<'a> {
    line: &'a [Binding],
    count: Vec<Vec<u8>>,
}

impl Ways<'_> {
    fn of(line: &[Binding]) -> Ways<'_> {
        let count = vec![vec![0; line.len() + 1]; line.len() + 1];
        let mut ways = Ways { line, count };
        for from in (0..=line.len()).rev() {
            ways.count[from][from] = 1;
            for to in from + 1..=line.len() {
                let splits = (from + 1..=to).take_while(|next| ways.may_nest(from, *next));
                let sum: u8 = splits.map(|next| ways.split(from, next, to)).sum();
                ways.count[from][to] = sum.min(2);
            }
        }
        ways
    }

    /// All operators after `from` and before `next` bind tighter than `from`. (Only
    /// the last of them is looked at: it is asked for one `next` after another.)
    fn may_nest(&self, from: usize, next: usize) -> bool {
        next == from + 1 || self.line[next - 1].is_tighter_than(self.line[from])
    }

    /// Groups of a range in which the first operator's next neighbour is `next`.
    fn split(&self, from: usize, next: usize, to: usize) -> u8 {
        let fits = next == to || may_follow(self.line[from], self.line[next]);
        u8::from(fits) * self.count[from + 1][next] * self.count[next][to]
    }

    /// One of the valid groups of a range.
    fn one(&self, range: Range<usize>) -> Option<Group> {
        let Range { start, end } = range;
        if start == end {
            return Some(Group(Vec::new()));
        }
        let nexts = (start + 1..=end).take_while(|next| self.may_nest(start, *next));
        let next = { nexts }.find(|next| self.split(start, *next, end) > 0)?;
        let (nested, rest) = (self.one(start + 1..next)?, self.one(next..end)?);
        Some(own_first(start, &nested, &rest))
    }
}

/// 01 on refusal 7: some operator has an earlier one of equal non-associative
/// binding, with only tighter ones between; the first such right operator
/// decides. Gives the left one.
pub fn clash(line: &[Binding]) -> Option<usize> {
    (0..line.len()).find_map(|right| clash_with(line, right))
}

/// The left operator of a clash with that right one.
pub fn clash_with(line: &[Binding], right: usize) -> Option<usize> {
    let clashes = |left: &usize| {
        let mut between = line[left + 1..right].iter();
        let equal = line[*left] == line[right] && !line[right].associative;
        equal && between.all(|other| other.is_tighter_than(line[*left]))
    };
    (0..right).find(clashes)
}

#[cfg(test)]
mod tests {
    use super::*;
    use crate::lines::line::Line;
    use oracle::text;

    fn line(text: &str) -> Vec<Binding> {
        let line = Line::read(&text::tokens(text).0);
        line.expect("an operator line").bindings
    }

    fn operators(group: &Group) -> Vec<usize> {
        let of = |own: &Own| [vec![own.operator], operators(&own.nested)].concat();
        group.0.iter().flat_map(of).collect()
    }

    fn flat(operators: Range<usize>) -> Group {
        let plain = |operator| Own {
            operator,
            nested: Group(Vec::new()),
        };
        Group(operators.map(plain).collect())
    }

    #[test]
    fn every_grouping_comes_once() {
        for (length, count) in [1, 1, 2, 5, 14, 42, 132].into_iter().enumerate() {
            let found = every(0..length);
            assert_eq!(found.len(), count);
            assert!((1..count).all(|at| !found[at..].contains(&found[at - 1])));
            let all: Vec<usize> = (0..length).collect();
            assert!(found.iter().all(|group| operators(group) == all));
        }
    }

    #[test]
    fn falling_bindings_are_one_group() {
        for text in ["a*b+c", "dirty & mask == 0 && acked", "a-b-c"] {
            let line = line(text);
            let group = by_trying_all(&line).group;
            assert_eq!(group, Some(flat(0..line.len())), "`{text}`");
        }
    }

    #[test]
    fn a_nested_group_is_not_tighter_than_all_of_its_parent() {
        let mut want = flat(0..2);
        want.0[1].nested = flat(2..3);
        assert_eq!(by_trying_all(&line("a*b+c*d")).group, Some(want));
    }

    #[test]
    fn a_clash_need_not_be_between_neighbours() {
        assert_eq!(clash(&line("a==b+c==d")), Some(0));
        assert_eq!(clash(&line("a==b==c")), Some(0));
        assert_eq!(clash(&line("a==b&&c==d")), None);
        assert_eq!(clash(&line("a+b<c as d as e<f")), Some(2));
        assert_eq!(by_trying_all(&line("a==b+c==d")).count, 0);
    }
}
