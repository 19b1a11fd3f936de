//! The token lists with known results, and the corners beside them. The tests
//! hold the oracle to them, and the fixed list of cases begins with them.

use crate::case::Case;
use crate::{text, Entry, DEEPEST};

/// A text, the settings where they aren't the usual ones, and what comes of it.
pub struct Known {
    pub entry: Entry,
    pub text: &'static str,
    pub limit: u32,
    /// Table elements; room enough if nothing is said.
    pub elements: Option<usize>,
    /// The tree, or a refusal as `7 at 2`.
    pub want: &'static str,
}

impl Known {
    const fn limit(mut self, limit: u32) -> Known {
        self.limit = limit;
        self
    }

    const fn elements(mut self, elements: usize) -> Known {
        self.elements = Some(elements);
        self
    }

    pub fn case(&self) -> Case {
        let (kinds, lens) = text::tokens(self.text);
        let mut case = Case::roomy(self.entry, kinds, lens);
        case.limit = self.limit;
        if let Some(elements) = self.elements {
            case.elements = elements;
        }
        case
    }
}

const fn known(entry: Entry, text: &'static str, want: &'static str) -> Known {
    Known {
        entry,
        text,
        limit: DEEPEST,
        elements: None,
        want,
    }
}

const fn root(text: &'static str, want: &'static str) -> Known {
    known(Entry::Root, text, want)
}

const fn exprs(text: &'static str, want: &'static str) -> Known {
    known(Entry::Exprs, text, want)
}

const fn format(text: &'static str, want: &'static str) -> Known {
    known(Entry::Format, text, want)
}

/// "Token lists with known results", in the order of the scope.
#[rustfmt::skip]
pub const RESULTS: &[Known] = &[
    exprs("a + b", "Root(Expr(ExprBinary(Path(ident) Whitespace ExprOperator(+) Whitespace Path(ident))))"),
    root("", "Root()"),
    exprs("", "Root()"),
    root("", "11 at 0").elements(0),
    root("", "11 at 0").elements(3),
    root("", "Root()").elements(4),
    exprs("", "11 at 0").elements(0),
    exprs("", "11 at 0").elements(3),
    exprs("", "Root()").elements(4),
    format("", "6 at 0"),
    format("", "6 at 0").elements(0),
    exprs("1", "Root(Expr(Lit(number)))"),
    exprs("1", "Root(Expr(Lit(number)))").elements(16),
    exprs("1", "11 at 1").elements(15),
    exprs("a", "Root(Expr(Path(ident)))").limit(2),
    exprs("a", "10 at 0").limit(1),
    exprs("a==b==c", "7 at 2"),
    exprs("a*b+c", "Root(Expr(ExprBinary(Path(ident) ExprOperator(*) Path(ident) ExprOperator(+) Path(ident))))"),
    exprs("a+b*c", "Root(Expr(ExprBinary(Path(ident) ExprOperator(+) ExprBinary(Path(ident) ExprOperator(*) Path(ident)))))"),
    exprs("a==b&&c==d", "Root(Expr(ExprBinary(Path(ident) ExprOperator(==) Path(ident) ExprOperator(&&) \
        ExprBinary(Path(ident) ExprOperator(==) Path(ident)))))"),
    exprs("(a)", "Root(Expr(ExprGroup('(' Expr(Path(ident)) ')')))"),
    exprs("(a,)", "Root(Expr(ExprTuple('(' Expr(Path(ident)) , ')')))"),
    exprs("()", "Root(Expr(ExprGroup('(' ')')))"),
    exprs("a..", "Root(Expr(ExprRangeFrom(Path(ident) ..)))"),
    exprs("a..=", "Root(Expr(Error(Path(ident) ..=)))"),
    root("a=;", "Root(Expr(ExprAssign(Expr(Path(ident)) = Expr(Error()))) ;)"),
    exprs("a=", "6 at 2"),
    root("# [", "9 at 0"),
    root("..a..b", "Root(Expr(ExprRangeTo(.. Path(ident))) Expr(ExprRangeTo(.. Path(ident))))"),
    root("loop {}(y)", "Root(Expr(ExprChain(ExprLoop(loop Whitespace Block('{' BlockBody() '}')) \
        ExprCall('(' Expr(Path(ident)) ')'))))"),
    root("while x {}(y)", "Root(Expr(ExprWhile(while Whitespace Expr(Path(ident) Whitespace) \
        Block('{' BlockBody() '}'))) Expr(ExprGroup('(' Expr(Path(ident)) ')')))"),
    root("(yield a)", "Root(Expr(ExprGroup('(')) Expr(ExprYield(yield Whitespace Expr(Path(ident)))) Error(Error(')')))"),
];

/// "Corners of the Rust to keep".
#[rustfmt::skip]
pub const CORNERS: &[Known] = &[
    exprs("foo bar", "Root(Expr(Path(ident Whitespace ident)))"),
    root("foo bar::baz self", "Root(Expr(Path(ident Whitespace ident :: ident Whitespace self)))"),
    // Recovery eats `}` and stops before what can begin a statement.
    root(") } a", "Root(Error(Error(')' Whitespace '}') Whitespace) Expr(Path(ident)))"),
    root("{ ) } let a = b", "Root(Expr(Block('{' Whitespace BlockBody(Error(Error(')' Whitespace '}') Whitespace) \
        Local(let Whitespace Pat(Path(ident)) Whitespace = Whitespace Expr(Path(ident)))))))"),
    root("} ;", "Root(Error(Error('}') Whitespace) ;)"),
    root(") # b", "Root(Error(Error(')' Whitespace #) Whitespace) Expr(Path(ident)))"),
    root(") #[b] c", "Root(Error(Error(')') Whitespace) Expr(Attribute(# '[' TokenStream(ident) ']') Whitespace Path(ident)))"),
    // A block eats a `}` where no `{` stood; `fn` asks for the `{` first.
    root("impl a }", "Root(Item(ItemImpl(impl Whitespace Path(ident) Whitespace Block('}'))))"),
    root("if a } b", "Root(Expr(ExprIf(if Whitespace Expr(Path(ident) Whitespace) Block('}')) Whitespace) Expr(Path(ident)))"),
    root("fn a }", "Root(Item(ItemFn(fn Whitespace ident)) Whitespace Error(Error('}')))"),
    // `yield` begins no expression in a list, `let` seems to.
    exprs("yield a", "Root(Expr(ExprYield(yield Whitespace Expr(Path(ident)))))"),
    exprs("(yield a)", "6 at 4"),
    exprs("(let a)", "6 at 1"),
    exprs("let", "6 at 0"),
    root("return let", "6 at 2"),
    root("let", "Root(Local(let Pat(Error()) Expr(Error())))"),
    exprs("a + b = c", "Root(Expr(ExprBinary(Path(ident) Whitespace ExprOperator(+) Whitespace \
        ExprAssign(Expr(Path(ident) Whitespace) = Whitespace Expr(Path(ident))))))"),
    // The last link's kind is the chain's: an Error makes the statement one.
    root("a.", "Root(Error(ExprChain(Path(ident) Error(.))))"),
    root("a.(b)", "Root(Expr(ExprChain(Path(ident) Error(.) ExprCall('(' Expr(Path(ident)) ')'))))"),
    root("a..=", "Root(Error(Error(Path(ident) ..=)))"),
    // No call or index right after `while` and `for`; after a link there may be.
    root("for a in b {}[y]", "Root(Expr(ExprFor(for Whitespace Pat(Path(ident)) Whitespace in Whitespace \
        Expr(Path(ident) Whitespace) Block('{' BlockBody() '}'))) Expr(ExprArray('[' Expr(Path(ident)) ']')))"),
    root("while x {}.a(y)", "Root(Expr(ExprChain(ExprWhile(while Whitespace Expr(Path(ident) Whitespace) \
        Block('{' BlockBody() '}')) ExprField(. Path(ident)) ExprCall('(' Expr(Path(ident)) ')'))))"),
    root("loop {}[y]", "Root(Expr(ExprChain(ExprLoop(loop Whitespace Block('{' BlockBody() '}')) \
        ExprIndex('[' Expr(Path(ident)) ']'))))"),
    // The two departures.
    root("# !", "9 at 0"),
    root("#/**/[", "9 at 0"),
    root(") # [b] c", "9 at 2"),
    root("{# [a]}", "9 at 1"),
    root("a; # !", "9 at 3"),
    root("#", "Root(Error(Error(#)))"),
    root("#[a", "8 at 3"),
    root("#![a", "8 at 4"),
    root("#[", "8 at 2"),
    root("#[a b ", "8 at 6"),
    root("#[[a]", "8 at 5"),
    exprs("a!(b (c)", "8 at 8"),
    exprs("a!(]}", "8 at 5"),
    exprs("a!{b {}", "8 at 7"),
    // The stream's mark writes the blank, and needs a row for it.
    root("#[ ", "11 at 3").elements(8),
    root("#[ ", "8 at 3").elements(12),
    // The end is seen before the blank after `a` would be written.
    root("#[a ", "8 at 4").elements(12),
];

/// "Errors that look right".
#[rustfmt::skip]
pub const PITFALLS: &[Known] = &[
    exprs("a-b-c", "Root(Expr(ExprBinary(Path(ident) ExprOperator(-) Path(ident) ExprOperator(-) Path(ident))))"),
    exprs("a*b+c*d", "Root(Expr(ExprBinary(Path(ident) ExprOperator(*) Path(ident) ExprOperator(+) \
        ExprBinary(Path(ident) ExprOperator(*) Path(ident)))))"),
    exprs("a==b+c==d", "7 at 2"),
    exprs("- 1", "Root(Expr(ExprUnary(- Whitespace Lit(number))))"),
    exprs("-1", "Root(Expr(Lit(- number)))"),
    root("let - 1 = a", "Root(Local(let Whitespace Pat(Lit(- Whitespace number)) Whitespace = Whitespace Expr(Path(ident))))"),
    // Every pattern that isn't first asked for takes the unglued one.
    root("for - 1 in a {}", "Root(Expr(ExprFor(for Whitespace Pat(Lit(- Whitespace number)) Whitespace in Whitespace \
        Expr(Path(ident) Whitespace) Block('{' BlockBody() '}'))))"),
    exprs("|-1| a", "Root(Expr(ExprClosure(ClosureArguments(| Pat(Lit(- number)) |) Whitespace Expr(Path(ident)))))"),
    exprs("|- 1| a", "Root(Expr(ExprClosure(ClosureArguments(|) Expr(ExprBinary(ExprUnary(- Whitespace Lit(number)) \
        ExprOperator(|) Whitespace Path(ident))))))"),
];

/// Operators: the clash, its place, and the depth a line needs.
#[rustfmt::skip]
pub const OPERATORS: &[Known] = &[
    exprs("a is  not b", "Root(Expr(ExprBinary(Path(ident) Whitespace ExprOperator(is Whitespace not) Whitespace Path(ident))))"),
    exprs("a is not", "6 at 5"),
    exprs("a as b as c", "7 at 4"),
    exprs("a is not b is c", "7 at 6"),
    exprs("a += b -= c", "7 at 4"),
    exprs("a < b * c >= d", "7 at 4"),
    exprs("a+=b==c==d", "7 at 4"),
    exprs("a==b&&c==d==e", "7 at 6"),
    exprs("a == b == c", "7 at 4"),
    exprs("a = b = c", "Root(Expr(ExprAssign(Expr(Path(ident) Whitespace) = Whitespace \
        Expr(ExprAssign(Expr(Path(ident) Whitespace) = Whitespace Expr(Path(ident)))))))"),
    exprs("a..b..c", "Root(Expr(ExprRange(Path(ident) .. Path(ident))) Expr(ExprRangeTo(.. Path(ident))))"),
    exprs("a+b..c", "Root(Expr(ExprRange(ExprBinary(Path(ident) ExprOperator(+) Path(ident)) .. Path(ident))))"),
    exprs("a..=b", "Root(Expr(ExprRangeInclusive(Path(ident) ..= Path(ident))))"),
    exprs("..", "Root(Expr(ExprRangeFull(..)))"),
    exprs("..=a", "Root(Expr(ExprRangeToInclusive(..= Path(ident))))"),
    exprs("..=", "6 at 1"),
    exprs("a+b", "10 at 2").limit(2),
    exprs("a+b", "10 at 2").limit(3),
    exprs("a+1", "Root(Expr(ExprBinary(Path(ident) ExprOperator(+) Lit(number))))").limit(3),
    exprs("a+b", "Root(Expr(ExprBinary(Path(ident) ExprOperator(+) Path(ident))))").limit(4),
    exprs("a+=b||c&&d==e|f^g&h<<i+j*k as l", "10 at 24").limit(13),
    exprs("a+=b||c&&d==e|f^g&h<<i+j*k as l", LONGEST).limit(14),
];

/// A line that nests all eleven bindings.
const LONGEST: &str =
    "Root(Expr(ExprBinary(Path(ident) ExprOperator(+=) ExprBinary(Path(ident) ExprOperator(||) \
    ExprBinary(Path(ident) ExprOperator(&&) ExprBinary(Path(ident) ExprOperator(==) \
    ExprBinary(Path(ident) ExprOperator(|) ExprBinary(Path(ident) ExprOperator(^) \
    ExprBinary(Path(ident) ExprOperator(&) ExprBinary(Path(ident) ExprOperator(<<) \
    ExprBinary(Path(ident) ExprOperator(+) ExprBinary(Path(ident) ExprOperator(*) \
    ExprBinary(Path(ident) Whitespace ExprOperator(as) Whitespace Path(ident))))))))))))))";

/// A tree for every rule that the lists above do not show.
#[rustfmt::skip]
pub const RULES: &[Known] = &[
    format("a b, c", "Root(Expr(Path(ident Whitespace ident)) , Whitespace ident)"),
    format("a + b } # ", "Root(Expr(ExprBinary(Path(ident) Whitespace ExprOperator(+) Whitespace Path(ident) Whitespace)) '}' Whitespace # Whitespace)"),
    root(" ", "Root(Whitespace)"),
    exprs(" a,, b ", "Root(Whitespace Expr(Path(ident)) , , Whitespace Expr(Path(ident) Whitespace))"),
    exprs("@", "6 at 0"),
    root("@", "Root(Error(Error(Other)))"),
    root("#![a]#[b]let c = 1", "Root(InnerAttribute(# ! '[' TokenStream(ident) ']') Local(Attribute(# '[' TokenStream(ident) ']') \
        let Whitespace Pat(Path(ident)) Whitespace = Whitespace Expr(Lit(number))))"),
    root("pub(in a::b) struct A;", "Root(Item(ItemStruct(Modifiers(pub ModifierIn('(' in Whitespace Path(ident :: ident) ')')) \
        Whitespace struct Whitespace ident EmptyBody())) ;)"),
    root("pub(super) use a::{b as d, *};", "Root(Item(ItemUse(Modifiers(pub ModifierSuper('(' super ')')) Whitespace use Whitespace ident :: \
        ItemUseGroup('{' ItemUsePath(ident Whitespace as Whitespace ident) , Whitespace ItemUsePath(*) '}'))) ;)"),
    root("pub(self) enum A { B, C(x), D { y } }", "Root(Item(ItemEnum(Modifiers(pub ModifierSelf('(' self ')')) Whitespace enum Whitespace ident \
        Whitespace '{' Whitespace Variant(ident EmptyBody()) , Whitespace Variant(ident TupleBody('(' Field(ident) ')')) , Whitespace \
        Variant(ident Whitespace StructBody('{' Whitespace Field(ident) Whitespace '}')) Whitespace '}')))"),
    root("pub(crate) mod a;", "Root(Item(ItemFileMod(Modifiers(pub ModifierCrate('(' crate ')')) Whitespace mod Whitespace ident)) ;)"),
    root("pub() mod a {}", "Root(Item(ItemMod(Modifiers(pub Error('(' ')')) Whitespace mod Whitespace ident Whitespace Block('{' BlockBody() '}'))))"),
    root("async fn f(a, _) {}", "Root(Item(ItemFn(Modifiers(async) Whitespace fn Whitespace ident FnArgs('(' Pat(Path(ident)) , Whitespace \
        Pat(PatIgnore(_)) ')') Whitespace Block('{' BlockBody() '}'))))"),
    root("const a = 1;", "Root(Item(ItemConst(Modifiers(const) Whitespace ident Whitespace = Whitespace Expr(Lit(number)))) ;)"),
    root("let (A { a: [1, ..], .. }, #{b}) = c", "Root(Local(let Whitespace Pat(PatTuple('(' Pat(PatObject(Path(ident) Whitespace '{' Whitespace \
        ident : Whitespace Pat(PatArray('[' Pat(Lit(number)) , Whitespace .. ']')) , Whitespace .. Whitespace '}')) , Whitespace \
        Pat(PatObject(AnonymousObjectKey(#) '{' ident '}')) ')')) Whitespace = Whitespace Expr(Path(ident))))"),
    exprs("a::<b, c> ::d", "Root(Expr(Path(ident :: PathGenerics(< Path(ident) , Whitespace Path(ident) >) Whitespace :: ident)))"),
    exprs("a::<b::<c>>", "6 at 8"),
    exprs("match a { 1 => b, c if d => e }", "Root(Expr(ExprMatch(match Whitespace Expr(Path(ident) Whitespace) '{' Whitespace \
        ExprMatchArm(Pat(Lit(number)) Whitespace => Whitespace Expr(Path(ident))) , Whitespace ExprMatchArm(Pat(Path(ident)) Whitespace \
        if Whitespace Expr(Path(ident) Whitespace) => Whitespace Expr(Path(ident) Whitespace)) '}')))"),
    exprs("select { a = b => c, default => d }", "Root(Expr(ExprSelect(select Whitespace '{' Whitespace ExprSelectArm(Pat(Path(ident)) Whitespace = \
        Whitespace Expr(Path(ident) Whitespace) => Whitespace Expr(Path(ident))) , Whitespace ExprSelectArm(default Whitespace => Whitespace \
        Expr(Path(ident) Whitespace)) '}')))"),
    exprs("if let a = b {} else if c {} else {}", "Root(Expr(ExprIf(if Whitespace Condition(let Whitespace Pat(Path(ident)) Whitespace = Whitespace \
        Expr(Path(ident) Whitespace)) Block('{' BlockBody() '}') Whitespace ExprElseIf(else Whitespace if Whitespace Expr(Path(ident) Whitespace) \
        Block('{' BlockBody() '}')) Whitespace ExprElse(else Whitespace Block('{' BlockBody() '}')))))"),
    exprs("#{a: 1, \"b\"}", "Root(Expr(ExprObject(AnonymousObjectKey(#) '{' ident : Whitespace Expr(Lit(number)) , Whitespace str '}')))"),
    exprs("A {a: 1}", "Root(Expr(ExprObject(Path(ident) Whitespace '{' ident : Whitespace Expr(Lit(number)) '}')))"),
    exprs("`t`", "Root(Expr(TemplateString(TemplateString)))"),
    exprs("«a»", "Root(Expr(ExprEmptyGroup(OpenEmpty Expr(Path(ident)) CloseEmpty)))"),
    exprs("|| !a", "Root(Expr(ExprClosure(ClosureArguments(||) Whitespace Expr(ExprUnary(! Path(ident))))))"),
    exprs("[a, b]", "Root(Expr(ExprArray('[' Expr(Path(ident)) , Whitespace Expr(Path(ident)) ']')))"),
    exprs("a!(b)", "Root(Expr(ExprMacroCall(Path(ident) ! '(' TokenStream(ident) ')')))"),
    exprs("a! (b)", "Root(Expr(Path(ident)) Expr(ExprUnary(! Whitespace ExprGroup('(' Expr(Path(ident)) ')'))))"),
    exprs("a.await?.1", "Root(Expr(ExprChain(Path(ident) ExprAwait(. await) ExprTry(?) ExprField(. number))))"),
    exprs("'a: loop { break 'a 1; continue }", "Root(Expr('label : Whitespace ExprLoop(loop Whitespace Block('{' Whitespace \
        BlockBody(Expr(ExprBreak(break Whitespace 'label Whitespace Expr(Lit(number)))) ; Whitespace Expr(ExprContinue(continue) Whitespace)) '}'))))"),
    exprs("return a", "Root(Expr(ExprReturn(return Whitespace Expr(Path(ident)))))"),
    // Trivia after an operand is written by the chain's mark.
    exprs("a /* b */ // c", "Root(Expr(Path(ident) Whitespace MultilineComment Whitespace Comment))"),
];

/// All of them.
pub fn all() -> impl Iterator<Item = &'static Known> {
    [RESULTS, CORNERS, PITFALLS, OPERATORS, RULES]
        .into_iter()
        .flatten()
}
