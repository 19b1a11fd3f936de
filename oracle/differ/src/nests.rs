//! The rules that go into themselves, as deep as they may, and the stack that
//! each side uses for them.

use oracle::case::Case;
use oracle::{text, Entry, DEEPEST};

use crate::native;
use crate::nights::Night;
use crate::pair::{ask, Side};

/// A rule inside itself: entry, beginning, what is repeated, what follows.
type Nest = (Entry, &'static str, &'static str, &'static str);

/// Every way for a rule to come back to itself that adds depth.
const NESTS: [Nest; 37] = [
    (Entry::Exprs, "", "(", "a"),
    (Entry::Exprs, "", "(a+", "a"),
    (Entry::Exprs, "", "a*(a+", "a"),
    (Entry::Exprs, "", "[", "a"),
    (Entry::Exprs, "", "«", "a"),
    (Entry::Exprs, "", "-", " 1"),
    (Entry::Exprs, "", "!*", "a"),
    (Entry::Exprs, "", "||", "a"),
    (Entry::Exprs, "", "|a| ", "a"),
    (Entry::Exprs, "", "a(", "a"),
    (Entry::Exprs, "", "a[", "a"),
    (Entry::Exprs, "", "a::<", "a"),
    (Entry::Exprs, "", "#{a:", "a"),
    (Entry::Exprs, "", "a{a:", "a"),
    (Entry::Exprs, "", "a=", "a"),
    (Entry::Exprs, "", "return ", "a"),
    (Entry::Exprs, "", "break ", "a"),
    (Entry::Exprs, "", "if ", "a"),
    (Entry::Exprs, "", "if let a=", "a"),
    (Entry::Exprs, "", "while ", "a"),
    (Entry::Exprs, "", "for a in ", "a"),
    (Entry::Exprs, "", "match ", "a"),
    (Entry::Exprs, "", "match a{_=>", "a"),
    (Entry::Exprs, "", "match a{_ if ", "a"),
    (Entry::Exprs, "", "select{_=", "a"),
    (Entry::Exprs, "", "loop{", "a"),
    (Entry::Exprs, "", "a.b(", "a"),
    (Entry::Exprs, "", "a=b+", "a"),
    (Entry::Exprs, "", "|a|{", "a"),
    (Entry::Root, "", "{", ""),
    (Entry::Root, "", "fn a(){", ""),
    (Entry::Root, "", "if a{", ""),
    (Entry::Root, "", "match a{_=>{", ""),
    (Entry::Root, "", "{let a=", ""),
    (Entry::Root, "use", "{", ""),
    (Entry::Root, "let", "(", ""),
    (Entry::Root, "let ", "a{a:", ""),
];

fn nested((entry, before, turn, after): Nest, times: usize) -> Case {
    let text = format!("{before}{}{after}", turn.repeat(times));
    let (kinds, lens) = text::tokens(&text);
    Case::roomy(entry, kinds, lens)
}

/// How many turns go before the depth limit is met.
fn deepest(nest: Nest) -> usize {
    let refused = |times: &usize| nested(nest, *times).run().0.number == 10;
    let first = (1..1000).find(refused);
    first.unwrap_or_else(|| panic!("{nest:?} does not reach the limit")) - 1
}

/// Each nest as deep as it may go, and one turn more.
pub fn at_the_limit() -> impl Iterator<Item = Case> {
    NESTS.into_iter().flat_map(edge_of)
}

fn edge_of(nest: Nest) -> [Case; 2] {
    let times = deepest(nest);
    [times, times + 1].map(|times| nested(nest, times))
}

/// Prints the stack that each side uses for the deepest lists.
pub fn print_stacks() {
    let measured = || {
        let mut most = (0, 0);
        for nest in NESTS {
            let used = stack_of(nest);
            most = (most.0.max(used.0), most.1.max(used.1));
            let (entry, before, turn, _) = nest;
            println!(
                "stack: {:9} oracle, {:9} krosstavel, bytes, for {entry:?} {before}{turn}..",
                used.0, used.1
            );
        }
        let (pair, case, used) = worst_pair();
        println!("stack: {used:9} krosstavel, bytes, for {pair}.., the most of two rules in turn");
        let in_night = stack_of_night(&case);
        println!("stack: {in_night:9} krosstavel, bytes, for the same as a night's job");
        println!(
            "stack: at depth {DEEPEST} at most {} KiB (krosstavel), {} KiB (oracle), of {} KiB",
            most.1.max(used).max(in_night).div_ceil(1024),
            most.0.div_ceil(1024),
            native::MEASURED_STACK / 1024
        );
    };
    let thread = std::thread::Builder::new().stack_size(native::MEASURED_STACK);
    let running = thread.spawn(measured).expect("a thread");
    running.join().expect("the stack is large enough");
}

/// Of every two nests in turn, in both entries, those for which the proved parser
/// uses the most stack. Turns that do not fit each other end early, and are few.
fn worst_pair() -> (String, Case, usize) {
    let nothing = Case::roomy(Entry::Root, Vec::new(), Vec::new());
    let mut worst = (String::new(), nothing, 0);
    for entry in [Entry::Root, Entry::Exprs] {
        for (_, before, one, _) in NESTS {
            for (_, _, other, _) in NESTS {
                let turn = format!("{one}{other}");
                let text = format!("{before} {}", turn.repeat(DEEPEST as usize));
                let (kinds, lens) = text::tokens(&text);
                let case = Case::roomy(entry, kinds, lens);
                let used = stack_of_side(native::parse, &case);
                if used > worst.2 {
                    worst = (format!("{entry:?} {before} {turn}"), case, used);
                }
            }
        }
    }
    worst
}

/// Bytes of stack that the oracle and the proved parser use for a nest, at its
/// deepest and one turn more.
fn stack_of(nest: Nest) -> (usize, usize) {
    let mut most = (0, 0);
    for case in edge_of(nest) {
        most.0 = most.0.max(stack_of_side(oracle::parse, &case));
        most.1 = most.1.max(stack_of_side(native::parse, &case));
    }
    most
}

fn stack_of_side(side: Side, case: &Case) -> usize {
    let mut table = vec![0; case.elements];
    native::stack_used(&mut || {
        ask(side, case, &mut table);
    })
}

/// Bytes of stack that the proved parser uses for a case as a night's only job.
fn stack_of_night(case: &Case) -> usize {
    let mut night = Night::default();
    let mut records = [native::record(&night.lay(case))];
    let mut table = vec![0; case.elements];
    native::stack_used(&mut || {
        native::batch(&night.kinds, &night.lens, &mut records, &mut table);
    })
}
