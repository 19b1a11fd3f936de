//! The kinds, with the numbers of `docs/KINDS.md`, under the names that the two
//! Rust files use.

/// Only the empty delimiter is named by the Rust; every other bracket is a kind
/// of its own here, so that a `Kind` stays one byte.
#[derive(Debug, Clone, Copy, PartialEq, Eq, Hash)]
pub enum Delimiter {
    /// The bracket that takes no bytes.
    Empty,
}

macro_rules! kinds {
    (tokens { $($tn:literal $tname:literal $token:ident,)* } nodes { $($nn:literal $node:ident,)* }) => {
        /// A token, a node, or the end.
        #[derive(Debug, Clone, Copy, PartialEq, Eq, Hash)]
        #[allow(missing_docs)]
        pub enum Kind {
            Eof,
            Open(Delimiter),
            Close(Delimiter),
            /// Names both a token and the node round it.
            TemplateString,
            $($token,)*
            $($node,)*
        }

        /// Number and name of every token kind, by number.
        pub const TOKENS: &[(u8, &str)] = &[
            $(($tn, $tname),)*
            (68, "OpenEmpty"),
            (69, "CloseEmpty"),
            (70, "TemplateString"),
        ];

        /// Number and name of every node kind, by number.
        pub const NODES: &[(u8, &str)] = &[
            $(($nn, stringify!($node)),)*
            (166, "TemplateString"),
        ];

        impl Kind {
            /// The kind that a token's number stands for. An unassigned number
            /// is treated as Other is.
            pub const fn of_token(number: u8) -> Kind {
                match number {
                    $($tn => Kind::$token,)*
                    68 => Kind::Open(Delimiter::Empty),
                    69 => Kind::Close(Delimiter::Empty),
                    70 => Kind::TemplateString,
                    1..=127 => Kind::Other,
                    _ => Kind::Eof,
                }
            }

            /// The number of a token kind; 0 for the end and for nodes.
            pub const fn token_number(self) -> u8 {
                match self {
                    $(Kind::$token => $tn,)*
                    Kind::Open(Delimiter::Empty) => 68,
                    Kind::Close(Delimiter::Empty) => 69,
                    Kind::TemplateString => 70,
                    _ => 0,
                }
            }

            /// The number of a node kind; 0 for the end and for tokens.
            pub const fn node_number(self) -> u8 {
                match self {
                    $(Kind::$node => $nn,)*
                    Kind::TemplateString => 166,
                    _ => 0,
                }
            }
        }
    };
}

kinds! {
    tokens {
        1 "ident" Ident,
        2 "::" ColonColon,
        3 "super" Super,
        4 "crate" Crate,
        5 "self" SelfValue,
        6 "Self" SelfType,
        7 "true" True,
        8 "false" False,
        9 "number" Number,
        10 "str" Str,
        11 "bytestr" ByteStr,
        12 "char" Char,
        13 "byte" Byte,
        14 "Whitespace" Whitespace,
        15 "Comment" Comment,
        16 "MultilineComment" MultilineComment,
        17 "Other" Other,
        18 "'('" OpenParen,
        19 "')'" CloseParen,
        20 "'['" OpenBracket,
        21 "']'" CloseBracket,
        22 "'{'" OpenBrace,
        23 "'}'" CloseBrace,
        24 "," Comma,
        25 "." Dot,
        26 ";" SemiColon,
        27 ":" Colon,
        28 "=" Equal,
        29 "!" Bang,
        30 "-" Dash,
        31 "&" Amp,
        32 "*" Star,
        33 "?" QuestionMark,
        34 "'label" Label,
        35 "#" Pound,
        36 "<" Lt,
        37 ">" Gt,
        38 "+" Plus,
        39 "/" Slash,
        40 "%" Perc,
        41 "==" EqEq,
        42 "!=" BangEq,
        43 "<=" LtEq,
        44 ">=" GtEq,
        45 "&&" AmpAmp,
        46 "||" PipePipe,
        47 "<<" LtLt,
        48 ">>" GtGt,
        49 "^" Caret,
        50 "|" Pipe,
        51 "as" As,
        52 "is" Is,
        53 "not" Not,
        54 "+=" PlusEq,
        55 "-=" DashEq,
        56 "*=" StarEq,
        57 "/=" SlashEq,
        58 "%=" PercEq,
        59 "&=" AmpEq,
        60 "^=" CaretEq,
        61 "|=" PipeEq,
        62 "<<=" LtLtEq,
        63 ">>=" GtGtEq,
        64 ".." DotDot,
        65 "..=" DotDotEq,
        66 "=>" Arrow,
        67 "_" Underscore,
        71 "async" Async,
        72 "await" Await,
        73 "break" Break,
        74 "const" Const,
        75 "continue" Continue,
        76 "default" DefaultWord,
        77 "else" Else,
        78 "enum" Enum,
        79 "fn" Fn,
        80 "for" For,
        81 "if" If,
        82 "impl" Impl,
        83 "in" In,
        84 "let" Let,
        85 "loop" Loop,
        86 "match" Match,
        87 "mod" Mod,
        88 "move" Move,
        89 "pub" Pub,
        90 "return" Return,
        91 "select" Select,
        92 "struct" Struct,
        93 "use" Use,
        94 "while" While,
        95 "yield" Yield,
    }
    nodes {
        128 Root,
        129 Expr,
        130 Error,
        131 Local,
        132 Item,
        133 ItemConst,
        134 ItemEnum,
        135 ItemFileMod,
        136 ItemFn,
        137 ItemImpl,
        138 ItemMod,
        139 ItemStruct,
        140 ItemUse,
        141 ItemUseGroup,
        142 ItemUsePath,
        143 InnerAttribute,
        144 Attribute,
        145 TokenStream,
        146 Modifiers,
        147 ModifierSuper,
        148 ModifierSelf,
        149 ModifierCrate,
        150 ModifierIn,
        151 EmptyBody,
        152 StructBody,
        153 TupleBody,
        154 Field,
        155 Variant,
        156 FnArgs,
        157 Pat,
        158 PatArray,
        159 PatIgnore,
        160 PatObject,
        161 PatTuple,
        162 AnonymousObjectKey,
        163 Path,
        164 PathGenerics,
        165 Lit,
        167 Block,
        168 BlockBody,
        169 Condition,
        170 ClosureArguments,
        171 ExprArray,
        172 ExprAssign,
        173 ExprAwait,
        174 ExprBinary,
        175 ExprBreak,
        176 ExprCall,
        177 ExprChain,
        178 ExprClosure,
        179 ExprContinue,
        180 ExprElse,
        181 ExprElseIf,
        182 ExprEmptyGroup,
        183 ExprField,
        184 ExprFor,
        185 ExprGroup,
        186 ExprIf,
        187 ExprIndex,
        188 ExprLoop,
        189 ExprMacroCall,
        190 ExprMatch,
        191 ExprMatchArm,
        192 ExprObject,
        193 ExprOperator,
        194 ExprRange,
        195 ExprRangeFrom,
        196 ExprRangeFull,
        197 ExprRangeInclusive,
        198 ExprRangeTo,
        199 ExprRangeToInclusive,
        200 ExprReturn,
        201 ExprSelect,
        202 ExprSelectArm,
        203 ExprTry,
        204 ExprTuple,
        205 ExprUnary,
        206 ExprWhile,
        207 ExprYield,
    }
}

impl Kind {
    /// Whitespace and comments, which the grammar never sees.
    pub const fn is_trivia(self) -> bool {
        matches!(
            self,
            Kind::Whitespace | Kind::Comment | Kind::MultilineComment
        )
    }
}

/// [`Kind::of_token`] as a table: one load where the parser decodes.
pub(crate) static OF_TOKEN: [Kind; 256] = {
    let mut table = [Kind::Eof; 256];
    let mut number = 0;
    while number < 256 {
        table[number] = Kind::of_token(number as u8);
        number += 1;
    }
    table
};

/// Number and name of every kind, by number: the list of `docs/KINDS.md`.
pub fn list() -> Vec<(u8, &'static str)> {
    let mut all: Vec<_> = TOKENS.iter().chain(NODES).copied().collect();
    all.sort_unstable();
    all
}

/// The name of a number: as listed, or `Other` for an unassigned token.
pub fn name(number: u8) -> &'static str {
    let found = TOKENS.iter().chain(NODES).find(|(n, _)| *n == number);
    found.map_or("Other", |(_, name)| name)
}

/// A token kind as the Rust spells it.
#[rustfmt::skip]
macro_rules! K {
    (ident) => { $crate::kinds::Kind::Ident };
    (::) => { $crate::kinds::Kind::ColonColon };
    (super) => { $crate::kinds::Kind::Super };
    (crate) => { $crate::kinds::Kind::Crate };
    (self) => { $crate::kinds::Kind::SelfValue };
    (Self) => { $crate::kinds::Kind::SelfType };
    (true) => { $crate::kinds::Kind::True };
    (false) => { $crate::kinds::Kind::False };
    (number) => { $crate::kinds::Kind::Number };
    (str) => { $crate::kinds::Kind::Str };
    (bytestr) => { $crate::kinds::Kind::ByteStr };
    (char) => { $crate::kinds::Kind::Char };
    (byte) => { $crate::kinds::Kind::Byte };
    ('(') => { $crate::kinds::Kind::OpenParen };
    (')') => { $crate::kinds::Kind::CloseParen };
    ('[') => { $crate::kinds::Kind::OpenBracket };
    (']') => { $crate::kinds::Kind::CloseBracket };
    ('{') => { $crate::kinds::Kind::OpenBrace };
    ('}') => { $crate::kinds::Kind::CloseBrace };
    (,) => { $crate::kinds::Kind::Comma };
    (.) => { $crate::kinds::Kind::Dot };
    (;) => { $crate::kinds::Kind::SemiColon };
    (:) => { $crate::kinds::Kind::Colon };
    (=) => { $crate::kinds::Kind::Equal };
    (!) => { $crate::kinds::Kind::Bang };
    (-) => { $crate::kinds::Kind::Dash };
    (&) => { $crate::kinds::Kind::Amp };
    (*) => { $crate::kinds::Kind::Star };
    (?) => { $crate::kinds::Kind::QuestionMark };
    ('label) => { $crate::kinds::Kind::Label };
    (#) => { $crate::kinds::Kind::Pound };
    (<) => { $crate::kinds::Kind::Lt };
    (>) => { $crate::kinds::Kind::Gt };
    (+) => { $crate::kinds::Kind::Plus };
    (/) => { $crate::kinds::Kind::Slash };
    (%) => { $crate::kinds::Kind::Perc };
    (==) => { $crate::kinds::Kind::EqEq };
    (!=) => { $crate::kinds::Kind::BangEq };
    (<=) => { $crate::kinds::Kind::LtEq };
    (>=) => { $crate::kinds::Kind::GtEq };
    (&&) => { $crate::kinds::Kind::AmpAmp };
    (||) => { $crate::kinds::Kind::PipePipe };
    (<<) => { $crate::kinds::Kind::LtLt };
    (>>) => { $crate::kinds::Kind::GtGt };
    (^) => { $crate::kinds::Kind::Caret };
    (|) => { $crate::kinds::Kind::Pipe };
    (as) => { $crate::kinds::Kind::As };
    (is) => { $crate::kinds::Kind::Is };
    (not) => { $crate::kinds::Kind::Not };
    (+=) => { $crate::kinds::Kind::PlusEq };
    (-=) => { $crate::kinds::Kind::DashEq };
    (*=) => { $crate::kinds::Kind::StarEq };
    (/=) => { $crate::kinds::Kind::SlashEq };
    (%=) => { $crate::kinds::Kind::PercEq };
    (&=) => { $crate::kinds::Kind::AmpEq };
    (^=) => { $crate::kinds::Kind::CaretEq };
    (|=) => { $crate::kinds::Kind::PipeEq };
    (<<=) => { $crate::kinds::Kind::LtLtEq };
    (>>=) => { $crate::kinds::Kind::GtGtEq };
    (..) => { $crate::kinds::Kind::DotDot };
    (..=) => { $crate::kinds::Kind::DotDotEq };
    (=>) => { $crate::kinds::Kind::Arrow };
    (_) => { $crate::kinds::Kind::Underscore };
    (async) => { $crate::kinds::Kind::Async };
    (await) => { $crate::kinds::Kind::Await };
    (break) => { $crate::kinds::Kind::Break };
    (const) => { $crate::kinds::Kind::Const };
    (continue) => { $crate::kinds::Kind::Continue };
    (default) => { $crate::kinds::Kind::DefaultWord };
    (else) => { $crate::kinds::Kind::Else };
    (enum) => { $crate::kinds::Kind::Enum };
    (fn) => { $crate::kinds::Kind::Fn };
    (for) => { $crate::kinds::Kind::For };
    (if) => { $crate::kinds::Kind::If };
    (impl) => { $crate::kinds::Kind::Impl };
    (in) => { $crate::kinds::Kind::In };
    (let) => { $crate::kinds::Kind::Let };
    (loop) => { $crate::kinds::Kind::Loop };
    (match) => { $crate::kinds::Kind::Match };
    (mod) => { $crate::kinds::Kind::Mod };
    (move) => { $crate::kinds::Kind::Move };
    (pub) => { $crate::kinds::Kind::Pub };
    (return) => { $crate::kinds::Kind::Return };
    (select) => { $crate::kinds::Kind::Select };
    (struct) => { $crate::kinds::Kind::Struct };
    (use) => { $crate::kinds::Kind::Use };
    (while) => { $crate::kinds::Kind::While };
    (yield) => { $crate::kinds::Kind::Yield };
}

/// The type of an operator's token as the Rust spells it.
#[rustfmt::skip]
macro_rules! T {
    (+) => { $crate::ast::Plus };
    (-) => { $crate::ast::Dash };
    (/) => { $crate::ast::Div };
    (*) => { $crate::ast::Star };
    (%) => { $crate::ast::Perc };
    (==) => { $crate::ast::EqEq };
    (!=) => { $crate::ast::BangEq };
    (>) => { $crate::ast::Gt };
    (<) => { $crate::ast::Lt };
    (>=) => { $crate::ast::GtEq };
    (<=) => { $crate::ast::LtEq };
    (as) => { $crate::ast::As };
    (is) => { $crate::ast::Is };
    (is not) => { $crate::ast::IsNot };
    (&&) => { $crate::ast::AmpAmp };
    (||) => { $crate::ast::PipePipe };
    (<<) => { $crate::ast::LtLt };
    (>>) => { $crate::ast::GtGt };
    (&) => { $crate::ast::Amp };
    (^) => { $crate::ast::Caret };
    (|) => { $crate::ast::Pipe };
    (+=) => { $crate::ast::PlusEq };
    (-=) => { $crate::ast::DashEq };
    (*=) => { $crate::ast::StarEq };
    (/=) => { $crate::ast::SlashEq };
    (%=) => { $crate::ast::PercEq };
    (&=) => { $crate::ast::AmpEq };
    (^=) => { $crate::ast::CaretEq };
    (|=) => { $crate::ast::PipeEq };
    (<<=) => { $crate::ast::LtLtEq };
    (>>=) => { $crate::ast::GtGtEq };
    (..) => { $crate::ast::DotDot };
    (..=) => { $crate::ast::DotDotEq };
}
