//! Random derivations: token lists that go through the grammar's rules on
//! purpose, down to their rare branches.

use crate::kinds::{Delimiter, Kind};
use crate::rng::Rng;

/// A token, and whether it should stand right after the one before.
#[derive(Debug, Clone, Copy)]
pub struct Piece {
    pub kind: u8,
    pub glued: bool,
}

/// Writes tokens until its budget is spent, then ends what it has begun.
pub struct Maker<'r> {
    rng: &'r mut Rng,
    out: Vec<Piece>,
    budget: usize,
    /// Rules within rules, and how many of them are enough.
    depth: usize,
    deepest: usize,
    /// Leave out the flaws that make most long programs refused: whatever is
    /// likely is certain, and what rarely fits its place isn't written.
    clean: bool,
}

/// A chance from here on is certain in a clean program.
const LIKELY: usize = 60;

const LITERALS: [Kind; 7] = [
    K![true],
    K![false],
    K![number],
    K![str],
    K![bytestr],
    K![char],
    K![byte],
];

const WORDS: [Kind; 5] = [K![ident], K![self], K![Self], K![crate], K![super]];

const ASSOCIATIVE: [Kind; 13] = [
    K![*],
    K![/],
    K![%],
    K![+],
    K![-],
    K![<<],
    K![>>],
    K![&],
    K![^],
    K![|],
    K![&&],
    K![||],
    K![+],
];

const OTHER_OPERATORS: [Kind; 19] = [
    K![==],
    K![!=],
    K![<],
    K![>],
    K![<=],
    K![>=],
    K![as],
    K![is],
    K![is],
    K![+=],
    K![-=],
    K![*=],
    K![/=],
    K![%=],
    K![&=],
    K![^=],
    K![|=],
    K![<<=],
    K![>>=],
];

impl<'r> Maker<'r> {
    pub fn new(rng: &'r mut Rng, budget: usize, clean: bool) -> Self {
        let deepest = rng.pick(&[4, 8, 16, 200]);
        Maker {
            rng,
            out: Vec::new(),
            budget,
            depth: 0,
            deepest,
            clean,
        }
    }

    pub fn finish(self) -> Vec<Piece> {
        self.out
    }

    fn put(&mut self, kind: Kind) {
        self.out.push(Piece {
            kind: kind.token_number(),
            glued: false,
        });
    }

    fn glue(&mut self, kind: Kind) {
        self.out.push(Piece {
            kind: kind.token_number(),
            glued: true,
        });
    }

    fn all(&mut self, kinds: &[Kind]) {
        kinds.iter().for_each(|kind| self.put(*kind));
    }

    /// The budget is spent.
    fn spent(&self) -> bool {
        self.out.len() >= self.budget
    }

    /// Nothing more should begin here.
    fn tired(&self) -> bool {
        self.spent() || self.depth >= self.deepest
    }

    /// A rule within a rule.
    fn inside(&mut self, rule: fn(&mut Self)) {
        self.depth += 1;
        rule(self);
        self.depth -= 1;
    }

    fn percent(&mut self, chance: usize) -> bool {
        self.clean && chance >= LIKELY || self.rng.percent(chance)
    }

    /// So many times in a hundred, and never in a clean program.
    fn flaw(&mut self, chance: usize) -> bool {
        !self.clean && self.rng.percent(chance)
    }

    /// A token so many times in a hundred.
    fn perhaps(&mut self, chance: usize, kind: Kind) {
        if self.percent(chance) {
            self.put(kind);
        }
    }

    /// Some of a rule, fewer when tired.
    fn some(&mut self, most: usize, rule: fn(&mut Self)) {
        for _ in 0..self.rng.below(most + 1) {
            if self.tired() {
                break;
            }
            self.inside(rule);
        }
    }

    /// Some of a rule with separators, now and then none or several.
    fn listed(&mut self, most: usize, separator: Kind, rule: fn(&mut Self)) {
        for _ in 0..self.rng.below(most + 1) {
            if self.tired() {
                break;
            }
            self.inside(rule);
            self.perhaps(85, separator);
            self.perhaps(5, separator);
        }
    }

    // Entries.

    pub fn statements(&mut self) {
        while !self.spent() {
            self.stmt();
        }
    }

    pub fn expressions(&mut self, separator: Kind) {
        while !self.spent() {
            self.expr();
            self.perhaps(90, separator);
            self.perhaps(10, separator);
        }
    }

    pub fn one_expression(&mut self) {
        self.expr();
        while !self.spent() {
            self.any();
        }
    }

    /// Operands with operators between them.
    pub fn operator_line(&mut self) {
        self.operand();
        while !self.spent() {
            self.operator();
            self.operand();
        }
    }

    fn operand(&mut self) {
        match self.rng.below(16) {
            0 => {
                self.put(K![-]);
                self.glue(K![number]);
            }
            1 => self.all(&[K![-], K![number]]),
            2 => self.expr_primary(),
            3 => {
                self.put(K!['(']);
                self.put(K![ident]);
                self.operator();
                self.all(&[K![ident], K![')']]);
            }
            4 => self.all(&[K![ident], K![=], K![ident]]),
            5 => self.all(&[K![ident], K![.], K![ident]]),
            6 => self.all(&[K![ident], K!['('], K![')']]),
            7 | 8 => self.put(K![number]),
            _ => self.put(K![ident]),
        }
    }

    fn operator(&mut self) {
        let kind = match self.rng.below(10) {
            _ if self.clean => self.rng.pick(&ASSOCIATIVE),
            0..=5 => self.rng.pick(&ASSOCIATIVE),
            6 => self.rng.pick(&[K![==], K![<], K![is], K![as], K![&&]]),
            _ => self.rng.pick(&OTHER_OPERATORS),
        };
        self.put(kind);
        if kind == K![is] {
            self.perhaps(50, K![not]);
        }
        if self.flaw(2) {
            let range = self.rng.pick(&[K![..], K![..=], K![=], K![not]]);
            self.put(range);
        }
    }

    /// Any token at all, trivia and unassigned numbers too.
    fn any(&mut self) {
        let kind = match self.rng.below(10) {
            0 => self.rng.between(1, 127),
            _ => self.rng.between(1, 95),
        };
        self.out.push(Piece {
            kind: kind as u8,
            glued: false,
        });
    }

    // Statements and items.

    fn stmt(&mut self) {
        if self.percent(6) {
            self.put(K![#]);
            self.glue(K![!]);
            if self.flaw(10) {
                self.put(K![!]);
            }
            self.stream(K!['['], K![']']);
        }
        if self.percent(10) {
            self.some(2, Self::attribute);
        }
        if self.percent(25) {
            self.modifiers();
        }
        self.stmt_body();
        self.perhaps(60, K![;]);
        self.perhaps(6, K![;]);
    }

    fn stmt_body(&mut self) {
        match self.rng.below(20) {
            0..=2 => self.local(),
            3 | 4 => self.item_use(),
            5 => self.item_struct(),
            6 => self.item_enum(),
            7 | 8 => self.item_fn(),
            9 => self.item_impl(),
            10 => self.item_mod(),
            11 => self.item_const(),
            12 => {
                self.label();
                self.expr();
            }
            _ => self.expr(),
        }
    }

    fn attribute(&mut self) {
        self.put(K![#]);
        self.stream(K!['['], K![']']);
    }

    /// A bracketed stream of any tokens, its own brackets in balance.
    fn stream(&mut self, open: Kind, close: Kind) {
        self.glue(open);
        for _ in 0..self.rng.below(4) {
            let from = self.out.len();
            self.any();
            let kind = self.out[from].kind;
            if kind == close.token_number() {
                self.out.pop();
            } else if kind == open.token_number() {
                self.put(close);
            }
        }
        self.perhaps(98, close);
    }

    fn modifiers(&mut self) {
        for _ in 0..self.rng.between(1, 2) {
            match self.rng.below(6) {
                0 => self.put(K![const]),
                1 => self.put(K![async]),
                2 => self.put(K![move]),
                3 => self.put(K![pub]),
                _ => self.visibility(),
            }
        }
    }

    fn visibility(&mut self) {
        self.all(&[K![pub], K!['(']]);
        match self.rng.below(6) {
            0 => self.put(K![super]),
            1 => self.put(K![self]),
            2 => self.put(K![crate]),
            3 | 4 => {
                self.put(K![in]);
                self.path();
            }
            _ => self.perhaps(20, K![number]),
        }
        self.perhaps(95, K![')']);
    }

    fn local(&mut self) {
        self.put(K![let]);
        self.pat();
        self.perhaps(92, K![=]);
        if self.percent(97) {
            self.expr();
        }
    }

    fn item_const(&mut self) {
        self.all(&[K![const], K![ident]]);
        self.perhaps(90, K![=]);
        self.expr();
    }

    fn item_use(&mut self) {
        self.put(K![use]);
        self.use_tree();
    }

    fn use_tree(&mut self) {
        for _ in 0..self.rng.below(3) {
            let word = self.rng.pick(&WORDS);
            self.all(&[word, K![::]]);
        }
        match self.rng.below(6) {
            0 => self.put(K![*]),
            1 | 2 if !self.tired() => {
                self.put(K!['{']);
                self.listed(3, K![,], Self::use_tree);
                self.perhaps(95, K!['}']);
            }
            3 => {
                self.all(&[K![ident], K![as]]);
                self.perhaps(90, K![ident]);
            }
            _ => self.put(K![ident]),
        }
    }

    fn item_struct(&mut self) {
        self.put(K![struct]);
        self.perhaps(95, K![ident]);
        self.body();
    }

    /// A struct's or a variant's body: none, named fields or unnamed ones.
    fn body(&mut self) {
        let field = |m: &mut Self| m.put(K![ident]);
        match self.rng.below(3) {
            0 => {
                self.put(K!['{']);
                self.listed(3, K![,], field);
                self.perhaps(95, K!['}']);
            }
            1 => {
                self.put(K!['(']);
                self.listed(3, K![,], field);
                self.perhaps(95, K![')']);
            }
            _ => {}
        }
    }

    fn item_enum(&mut self) {
        self.put(K![enum]);
        self.perhaps(95, K![ident]);
        if self.percent(95) {
            self.put(K!['{']);
            self.listed(3, K![,], |m| {
                m.put(K![ident]);
                m.body();
            });
            self.perhaps(95, K!['}']);
        }
    }

    fn item_fn(&mut self) {
        self.put(K![fn]);
        self.perhaps(95, K![ident]);
        if self.percent(95) {
            self.put(K!['(']);
            self.perhaps(4, K![,]);
            self.listed(3, K![,], Self::pat);
            self.perhaps(96, K![')']);
        }
        if self.percent(92) {
            self.block();
        }
    }

    fn item_impl(&mut self) {
        self.put(K![impl]);
        if self.percent(95) {
            self.path();
        }
        self.block();
    }

    fn item_mod(&mut self) {
        self.put(K![mod]);
        self.perhaps(95, K![ident]);
        if self.percent(60) {
            self.block();
        }
    }

    fn block(&mut self) {
        self.perhaps(97, K!['{']);
        self.some(2, Self::stmt);
        self.perhaps(97, K!['}']);
    }

    // Paths and patterns.

    fn path(&mut self) {
        self.perhaps(6, K![::]);
        let word = self.rng.pick(&WORDS);
        self.put(word);
        for _ in 0..self.rng.below(3) {
            self.perhaps(92, K![::]);
            match self.rng.below(4) {
                0 if !self.tired() => self.generics(),
                _ => self.put(K![ident]),
            }
        }
    }

    fn generics(&mut self) {
        self.put(K![<]);
        self.listed(2, K![,], Self::path);
        self.perhaps(95, K![>]);
        if self.percent(5) {
            self.all(&[K![<], K![>]]);
        }
    }

    fn pat(&mut self) {
        if self.flaw(4) {
            self.attribute();
        }
        if self.tired() {
            return self.put(K![ident]);
        }
        match self.rng.below(14) {
            0 => self.literal(),
            1 => {
                self.put(K![-]);
                self.glue(K![number]);
            }
            2 => self.put(K![_]),
            3 => self.path(),
            4 => {
                self.path();
                self.pat_object();
            }
            5 => {
                self.path();
                self.pat_parens(K!['('], K![')']);
            }
            6 => self.pat_parens(K!['['], K![']']),
            7 => self.pat_parens(K!['('], K![')']),
            8 => {
                self.put(K![#]);
                self.pat_object();
            }
            9 if self.flaw(30) => self.perhaps(50, K![-]),
            _ => self.put(K![ident]),
        }
    }

    fn pat_object(&mut self) {
        self.glue(K!['{']);
        self.listed(3, K![,], |m| {
            m.object_key();
            if m.percent(50) {
                m.put(K![:]);
                m.pat();
            }
        });
        self.perhaps(30, K![..]);
        self.perhaps(96, K!['}']);
    }

    fn object_key(&mut self) {
        let key = self.rng.pick(&[K![ident], K![ident], K![str]]);
        self.put(key);
    }

    fn pat_parens(&mut self, open: Kind, close: Kind) {
        self.put(open);
        self.listed(3, K![,], Self::pat);
        self.perhaps(30, K![..]);
        self.perhaps(96, close);
    }

    // Expressions.

    fn literal(&mut self) {
        let literal = self.rng.pick(&LITERALS);
        self.put(literal);
    }

    fn label(&mut self) {
        self.put(K!['label]);
        if self.percent(85) {
            self.glue(K![:]);
        }
    }

    fn expr(&mut self) {
        if !self.tired() && self.percent(4) {
            self.attribute();
        }
        if !self.tired() && self.flaw(4) {
            self.modifiers();
        }
        if !self.tired() && self.percent(4) {
            self.label();
        }
        self.bare_expr();
    }

    /// An expression where attributes and labels do not fit.
    fn bare_expr(&mut self) {
        if self.tired() {
            let kind = self.rng.pick(&[K![ident], K![number], K![self], K![str]]);
            return self.put(kind);
        }
        self.inside(Self::expr_primary);
        self.some(2, Self::link);
        if self.percent(22) && !self.tired() {
            self.operator();
            self.inside(Self::bare_expr);
        }
        if self.percent(5) && !self.tired() {
            self.put(K![=]);
            self.expr();
        }
        if self.percent(7) {
            self.range_end();
        }
    }

    fn range_end(&mut self) {
        let dots = self.rng.pick(&[K![..], K![..=]]);
        self.put(dots);
        if self.percent(60) {
            self.bare_expr();
        }
    }

    fn link(&mut self) {
        match self.rng.below(12) {
            0 => {
                self.put(K!['[']);
                self.expr();
                self.perhaps(95, K![']']);
            }
            1 | 2 => {
                self.put(K!['(']);
                self.listed(2, K![,], Self::expr);
                self.perhaps(95, K![')']);
            }
            3 => self.put(K![?]),
            4 => self.all(&[K![.], K![await]]),
            5 => {
                self.put(K![.]);
                self.path();
            }
            6 => self.all(&[K![.], K![number]]),
            7 if self.flaw(30) => self.put(K![.]),
            _ => {}
        }
    }

    fn expr_primary(&mut self) {
        if self.tired() {
            return self.put(K![ident]);
        }
        match self.rng.below(4) {
            0 => self.simple(),
            1 => self.delimited(),
            2 => self.control(),
            _ => self.prefixed(),
        }
    }

    fn simple(&mut self) {
        match self.rng.below(8) {
            0 | 1 => self.literal(),
            2 | 3 => self.path(),
            4 => {
                self.path();
                self.object();
            }
            5 => {
                self.put(K![ident]);
                self.put(K![!]);
                let (open, close) = self.rng.pick(&[(K!['('], K![')']), (K!['{'], K!['}'])]);
                self.stream(open, close);
            }
            6 => self.put(Kind::TemplateString),
            _ => {
                self.put(K![#]);
                self.object();
            }
        }
    }

    fn object(&mut self) {
        self.glue(K!['{']);
        self.listed(2, K![,], |m| {
            m.object_key();
            if m.percent(70) {
                m.put(K![:]);
                m.expr();
            }
        });
        self.perhaps(96, K!['}']);
    }

    fn delimited(&mut self) {
        match self.rng.below(5) {
            0 => {
                self.put(Kind::Open(Delimiter::Empty));
                self.expr();
                self.perhaps(95, Kind::Close(Delimiter::Empty));
            }
            1 => {
                self.put(K!['[']);
                self.listed(3, K![,], Self::expr);
                self.perhaps(96, K![']']);
            }
            2 => self.block(),
            _ => {
                self.put(K!['(']);
                self.listed(3, K![,], Self::expr);
                self.perhaps(96, K![')']);
            }
        }
    }

    fn prefixed(&mut self) {
        match self.rng.below(10) {
            0 | 1 => {
                let sign = self.rng.pick(&[K![!], K![-], K![&], K![*]]);
                self.put(sign);
                self.expr_primary();
            }
            2 => {
                self.put(K![-]);
                self.glue(K![number]);
            }
            3 => {
                self.put(K![||]);
                self.expr();
            }
            4 => {
                self.put(K![|]);
                self.listed(2, K![,], Self::pat);
                self.perhaps(96, K![|]);
                self.expr();
            }
            5 if !self.clean => self.range_end(),
            _ => self.jump(),
        }
    }

    fn jump(&mut self) {
        match self.rng.below(4) {
            0 => {
                self.put(K![break]);
                self.perhaps(30, K!['label]);
                self.perhaps_expr();
            }
            1 => {
                self.put(K![continue]);
                self.perhaps(40, K!['label]);
            }
            // In a list no expression begins with `yield`.
            2 if !self.clean => {
                self.put(K![yield]);
                self.perhaps_expr();
            }
            _ => {
                self.put(K![return]);
                self.perhaps_expr();
            }
        }
    }

    fn perhaps_expr(&mut self) {
        if self.percent(60) {
            self.expr();
        }
    }

    fn control(&mut self) {
        match self.rng.below(6) {
            0 => {
                self.put(K![if]);
                self.condition();
                self.block();
                self.some(2, Self::else_branch);
            }
            1 => {
                self.put(K![while]);
                self.condition();
                self.block();
            }
            2 => {
                self.put(K![loop]);
                self.block();
            }
            3 => {
                self.put(K![for]);
                self.pat();
                self.perhaps(95, K![in]);
                self.head();
                self.block();
            }
            4 => self.expr_match(),
            _ => self.expr_select(),
        }
    }

    fn else_branch(&mut self) {
        self.put(K![else]);
        if self.percent(50) {
            self.put(K![if]);
            self.condition();
        }
        self.block();
    }

    fn condition(&mut self) {
        if self.percent(40) {
            self.put(K![let]);
            self.pat();
            self.perhaps(92, K![=]);
        }
        self.head();
    }

    /// An expression before a block: mostly one that ends before the brace.
    fn head(&mut self) {
        match self.rng.below(4) {
            0 => self.expr(),
            1 => {
                self.put(K![ident]);
                self.operator();
                self.put(K![number]);
            }
            _ => self.put(K![ident]),
        }
    }

    fn expr_match(&mut self) {
        self.put(K![match]);
        self.head();
        self.perhaps(97, K!['{']);
        self.listed(3, K![,], |m| {
            m.pat();
            if m.percent(25) {
                m.put(K![if]);
                m.expr();
            }
            m.perhaps(96, K![=>]);
            m.expr();
        });
        self.perhaps(97, K!['}']);
    }

    fn expr_select(&mut self) {
        self.put(K![select]);
        self.perhaps(97, K!['{']);
        self.listed(3, K![,], |m| {
            if m.percent(30) {
                m.put(K![default]);
            } else {
                m.pat();
                m.perhaps(90, K![=]);
                m.expr();
            }
            m.perhaps(96, K![=>]);
            m.expr();
        });
        self.perhaps(97, K!['}']);
    }
}
