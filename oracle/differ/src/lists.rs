//! The lists that speed is measured on, each of any number of tokens.

use oracle::case::Case;
use oracle::generate::{Class, Source};
use oracle::{text, Entry};

/// A list by its name, made to a number of tokens.
pub struct List {
    pub name: &'static str,
    entry: Entry,
    make: Make,
}

/// How a list is made.
enum Make {
    /// A beginning, then a text again and again.
    Turns(&'static str, &'static str),
    /// One token again and again.
    One(&'static str),
    By(fn(usize) -> Tokens),
}

pub type Tokens = (Vec<u8>, Vec<u32>);

const SPACE: u8 = 14;

/// Every list of the benchmark: programs and guards, each construct again and
/// again, and what strains one thing alone (rows, depth, trivia, one long token run).
pub const LISTS: [List; 35] = [
    by("mixed programs", Entry::Root, |n| programs(14, n)),
    by("guards", Entry::Exprs, guards),
    turns("a + a ..", Entry::Exprs, "a", " + a"),
    turns("operator mix", Entry::Exprs, "a", MIX),
    by("operator mix, no spaces", Entry::Exprs, |n| {
        between("a", &MIX.replace(' ', ""), n)
    }),
    turns("unary operators", Entry::Exprs, "", "!a,-b,*c,&d,"),
    turns("ranges", Entry::Exprs, "", "a..b,c..=d,..,..e,"),
    turns("literals", Entry::Exprs, "", "1,\"a\",'b',true,"),
    turns("calls", Entry::Root, "", "f(a,b,c(d));"),
    turns("a.b(1)?;", Entry::Root, "", "a.b(1)?;"),
    turns("chains", Entry::Exprs, "a", ".b(c)?[1].await.2"),
    turns("closures", Entry::Exprs, "", "|a,b| a+b,"),
    turns("objects", Entry::Exprs, "", "#{a:1,b:c},S{a:1},"),
    turns("macros", Entry::Root, "", "m!(a,b);n![c];"),
    turns("statements", Entry::Root, "", "let a = b;"),
    turns("patterns", Entry::Root, "", "let (a,[b,..],P{c:d})=e;"),
    turns("conditions", Entry::Root, "", CONDITIONS),
    turns("loops", Entry::Root, "", "for a in 0..10 {b(a);}"),
    turns("matches", Entry::Root, "", MATCHES),
    turns("items", Entry::Root, "", ITEMS),
    turns("uses", Entry::Root, "", "use a::b::{c,d::{e,f},g};"),
    turns("attributes", Entry::Root, "", "#[a(b)] #[c] let a=1;"),
    one("let let ..", Entry::Root, "let"),
    one("for for ..", Entry::Root, "for"),
    one("loop loop ..", Entry::Root, "loop"),
    one("pub pub ..", Entry::Root, "pub"),
    one("one path", Entry::Exprs, "a"),
    turns("one path with ::", Entry::Exprs, "a", "::a"),
    one("spaces", Entry::Root, " "),
    one("one recovery", Entry::Root, "}"),
    by("one token stream", Entry::Exprs, one_stream),
    by("nested parentheses", Entry::Exprs, parentheses),
    by("250 || then spaces", Entry::Root, |n| {
        between(&"||".repeat(250), " ", n)
    }),
    by("250 || a then spaces", Entry::Exprs, |n| {
        between(&format!("{}a", "||".repeat(250)), " ", n)
    }),
    // Each of the 250 looks past the `;` for an operator of two tokens.
    by("250 || a; then spaces", Entry::Root, |n| {
        between(&format!("{}a;", "||".repeat(250)), " ", n)
    }),
];

/// Guards of a policy, one after another.
pub fn guards(tokens: usize) -> Tokens {
    between("", "a & b == 0 && (c || d < e),", tokens)
}

const CONDITIONS: &str = "if a==b {c} else if d {e} else {f}";
const MATCHES: &str = "match a {1=>b,[x,y] if c=>{d},_=>e}";
const ITEMS: &str =
    "pub fn f(a,b){a+b} struct S{a,b} enum E{A,B(a),C{x}} mod m{} impl S{} const X=1;";

/// Every binding that may follow itself, the tightest first, and `==` once.
const MIX: &str = " as b * a / b + a - b << a & b ^ a | b == a && b || a";

type Name = &'static str;

const fn turns(name: Name, entry: Entry, begin: &'static str, turn: &'static str) -> List {
    let make = Make::Turns(begin, turn);
    List { name, entry, make }
}

const fn one(name: Name, entry: Entry, token: &'static str) -> List {
    let make = Make::One(token);
    List { name, entry, make }
}

const fn by(name: Name, entry: Entry, make: fn(usize) -> Tokens) -> List {
    let make = Make::By(make);
    List { name, entry, make }
}

impl List {
    /// The list with so many tokens and a table that is just large enough, with
    /// odd elements at its end.
    pub fn case(&self, tokens: usize) -> Case {
        let (kinds, lens) = match self.make {
            Make::Turns(begin, turn) => between(begin, turn, tokens),
            Make::One(token) => repeated(token, tokens),
            Make::By(make) => make(tokens),
        };
        assert_eq!(kinds.len(), tokens, "{}", self.name);
        let mut case = Case::roomy(self.entry, kinds, lens);
        case.elements *= 2;
        let (answer, _) = case.run();
        assert_eq!(answer.number, 0, "{} is accepted", self.name);
        case.elements = answer.rows as usize * oracle::ROW + 3;
        case
    }
}

/// A beginning, then as many turns as fit, then spaces.
fn between(begin: &str, turn: &str, tokens: usize) -> Tokens {
    let (mut kinds, mut lens) = text::tokens(begin);
    let (turn_kinds, turn_lens) = text::tokens(turn);
    while kinds.len() + turn_kinds.len() <= tokens {
        kinds.extend(&turn_kinds);
        lens.extend(&turn_lens);
    }
    filled((kinds, lens), SPACE, tokens)
}

/// The one token of a text again and again.
fn repeated(text: &str, tokens: usize) -> Tokens {
    let (kinds, lens) = text::tokens(text);
    (kinds.repeat(tokens), lens.repeat(tokens))
}

fn filled((mut kinds, mut lens): Tokens, with: u8, tokens: usize) -> Tokens {
    kinds.resize(tokens, with);
    lens.resize(tokens, 1);
    (kinds, lens)
}

/// A macro call's stream over everything else.
fn one_stream(tokens: usize) -> Tokens {
    let (mut kinds, _) = text::tokens("a!(");
    kinds.resize(tokens - 1, SPACE + 3);
    kinds.extend(text::tokens(")").0);
    (kinds, vec![1; tokens])
}

/// Parentheses as deep as they may go, one group after another.
fn parentheses(tokens: usize) -> Tokens {
    const DEEPEST: usize = 254;
    let group = format!("{}a{},", "(".repeat(DEEPEST), ")".repeat(DEEPEST));
    between("", &group, tokens)
}

/// Generated programs one after another. Only those are taken which leave
/// nothing open for the next, so that the whole is accepted.
pub fn programs(seed: u64, tokens: usize) -> Tokens {
    const SEMICOLON: u8 = 26;
    let mut all = (Vec::new(), Vec::new());
    let mut source = Source::new(seed, 120);
    while all.0.len() < tokens {
        let (class, mut case) = source.next_case();
        case.kinds.push(SEMICOLON);
        case.lens.push(1);
        let fits = all.0.len() + case.kinds.len() <= tokens;
        if class == Class::Program && fits && stands_alone(&case) {
            all.0.extend(&case.kinds);
            all.1.extend(&case.lens);
        }
        // The last few tokens: nothing much fits any more.
        if tokens - all.0.len() < 10 {
            all = filled(all, SEMICOLON, tokens);
        }
    }
    all
}

/// Accepted as statements, and a second one after it changes no row of the first
/// but Root: everything that it began has ended.
fn stands_alone(case: &Case) -> bool {
    let rows = |times| {
        let (kinds, lens) = (case.kinds.repeat(times), case.lens.repeat(times));
        Case::roomy(Entry::Root, kinds, lens).rows().1
    };
    let (once, twice) = (rows(1), rows(2));
    let Some((_root, once)) = once.split_last() else {
        return false;
    };
    case.entry == Entry::Root && twice.starts_with(once)
}
