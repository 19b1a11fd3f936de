//! The kinds: the list of `docs/KINDS.md`, which `tools/check-kinds` holds this one to.

macro_rules! kinds {
    ($($number:literal $name:literal $kind:ident,)*) => {
        /// What a token or a node is. Numbers 1 to 127 are tokens, from 128 up nodes.
        ///
        /// A token may also have a number from 96 to 127 that no kind has: the parser treats it as [`Kind::Other`], and its row keeps the number.
        #[derive(Debug, Clone, Copy, PartialEq, Eq, PartialOrd, Ord, Hash)]
        #[non_exhaustive]
        #[repr(u8)]
        pub enum Kind {
            $(#[doc = concat!("`", $name, "`, ", $number)] $kind = $number,)*
        }

        impl Kind {
            /// Every kind, by number.
            pub const ALL: &'static [Kind] = &[$(Kind::$kind,)*];

            /// The kind that has a number, if one has.
            pub const fn of_number(number: u32) -> Option<Kind> {
                match number {
                    $($number => Some(Kind::$kind),)*
                    _ => None,
                }
            }

            /// The name, as `docs/KINDS.md` has it: a token as Rust spells it (brackets in quotes), a node by its Rust name.
            pub const fn name(self) -> &'static str {
                match self {
                    $(Kind::$kind => $name,)*
                }
            }
        }
    };
}

// number, name, variant. The node `TemplateString` is `Template` here: the token in it has the name too.
#[rustfmt::skip]
kinds! {
    1 "ident" Ident,
    2 "::" ColonColon,
    3 "super" Super,
    4 "crate" Crate,
    5 "self" SelfValue,
    6 "Self" SelfType,
    7 "true" True,
    8 "false" False,
    9 "number" Number,
    10 "str" Str,
    11 "bytestr" ByteStr,
    12 "char" Char,
    13 "byte" Byte,
    14 "Whitespace" Whitespace,
    15 "Comment" Comment,
    16 "MultilineComment" MultilineComment,
    17 "Other" Other,
    18 "'('" OpenParen,
    19 "')'" CloseParen,
    20 "'['" OpenBracket,
    21 "']'" CloseBracket,
    22 "'{'" OpenBrace,
    23 "'}'" CloseBrace,
    24 "," Comma,
    25 "." Dot,
    26 ";" Semicolon,
    27 ":" Colon,
    28 "=" Equal,
    29 "!" Bang,
    30 "-" Dash,
    31 "&" Amp,
    32 "*" Star,
    33 "?" QuestionMark,
    34 "'label" Label,
    35 "#" Pound,
    36 "<" Lt,
    37 ">" Gt,
    38 "+" Plus,
    39 "/" Slash,
    40 "%" Percent,
    41 "==" EqEq,
    42 "!=" BangEq,
    43 "<=" LtEq,
    44 ">=" GtEq,
    45 "&&" AmpAmp,
    46 "||" PipePipe,
    47 "<<" LtLt,
    48 ">>" GtGt,
    49 "^" Caret,
    50 "|" Pipe,
    51 "as" As,
    52 "is" Is,
    53 "not" Not,
    54 "+=" PlusEq,
    55 "-=" DashEq,
    56 "*=" StarEq,
    57 "/=" SlashEq,
    58 "%=" PercentEq,
    59 "&=" AmpEq,
    60 "^=" CaretEq,
    61 "|=" PipeEq,
    62 "<<=" LtLtEq,
    63 ">>=" GtGtEq,
    64 ".." DotDot,
    65 "..=" DotDotEq,
    66 "=>" Arrow,
    67 "_" Underscore,
    68 "OpenEmpty" OpenEmpty,
    69 "CloseEmpty" CloseEmpty,
    70 "TemplateString" TemplateString,
    71 "async" Async,
    72 "await" Await,
    73 "break" Break,
    74 "const" Const,
    75 "continue" Continue,
    76 "default" Default,
    77 "else" Else,
    78 "enum" Enum,
    79 "fn" Fn,
    80 "for" For,
    81 "if" If,
    82 "impl" Impl,
    83 "in" In,
    84 "let" Let,
    85 "loop" Loop,
    86 "match" Match,
    87 "mod" Mod,
    88 "move" Move,
    89 "pub" Pub,
    90 "return" Return,
    91 "select" Select,
    92 "struct" Struct,
    93 "use" Use,
    94 "while" While,
    95 "yield" Yield,

    128 "Root" Root,
    129 "Expr" Expr,
    130 "Error" Error,
    131 "Local" Local,
    132 "Item" Item,
    133 "ItemConst" ItemConst,
    134 "ItemEnum" ItemEnum,
    135 "ItemFileMod" ItemFileMod,
    136 "ItemFn" ItemFn,
    137 "ItemImpl" ItemImpl,
    138 "ItemMod" ItemMod,
    139 "ItemStruct" ItemStruct,
    140 "ItemUse" ItemUse,
    141 "ItemUseGroup" ItemUseGroup,
    142 "ItemUsePath" ItemUsePath,
    143 "InnerAttribute" InnerAttribute,
    144 "Attribute" Attribute,
    145 "TokenStream" TokenStream,
    146 "Modifiers" Modifiers,
    147 "ModifierSuper" ModifierSuper,
    148 "ModifierSelf" ModifierSelf,
    149 "ModifierCrate" ModifierCrate,
    150 "ModifierIn" ModifierIn,
    151 "EmptyBody" EmptyBody,
    152 "StructBody" StructBody,
    153 "TupleBody" TupleBody,
    154 "Field" Field,
    155 "Variant" Variant,
    156 "FnArgs" FnArgs,
    157 "Pat" Pat,
    158 "PatArray" PatArray,
    159 "PatIgnore" PatIgnore,
    160 "PatObject" PatObject,
    161 "PatTuple" PatTuple,
    162 "AnonymousObjectKey" AnonymousObjectKey,
    163 "Path" Path,
    164 "PathGenerics" PathGenerics,
    165 "Lit" Lit,
    166 "TemplateString" Template,
    167 "Block" Block,
    168 "BlockBody" BlockBody,
    169 "Condition" Condition,
    170 "ClosureArguments" ClosureArguments,
    171 "ExprArray" ExprArray,
    172 "ExprAssign" ExprAssign,
    173 "ExprAwait" ExprAwait,
    174 "ExprBinary" ExprBinary,
    175 "ExprBreak" ExprBreak,
    176 "ExprCall" ExprCall,
    177 "ExprChain" ExprChain,
    178 "ExprClosure" ExprClosure,
    179 "ExprContinue" ExprContinue,
    180 "ExprElse" ExprElse,
    181 "ExprElseIf" ExprElseIf,
    182 "ExprEmptyGroup" ExprEmptyGroup,
    183 "ExprField" ExprField,
    184 "ExprFor" ExprFor,
    185 "ExprGroup" ExprGroup,
    186 "ExprIf" ExprIf,
    187 "ExprIndex" ExprIndex,
    188 "ExprLoop" ExprLoop,
    189 "ExprMacroCall" ExprMacroCall,
    190 "ExprMatch" ExprMatch,
    191 "ExprMatchArm" ExprMatchArm,
    192 "ExprObject" ExprObject,
    193 "ExprOperator" ExprOperator,
    194 "ExprRange" ExprRange,
    195 "ExprRangeFrom" ExprRangeFrom,
    196 "ExprRangeFull" ExprRangeFull,
    197 "ExprRangeInclusive" ExprRangeInclusive,
    198 "ExprRangeTo" ExprRangeTo,
    199 "ExprRangeToInclusive" ExprRangeToInclusive,
    200 "ExprReturn" ExprReturn,
    201 "ExprSelect" ExprSelect,
    202 "ExprSelectArm" ExprSelectArm,
    203 "ExprTry" ExprTry,
    204 "ExprTuple" ExprTuple,
    205 "ExprUnary" ExprUnary,
    206 "ExprWhile" ExprWhile,
    207 "ExprYield" ExprYield,
}

impl Kind {
    /// The number, as it stands in the lists and in the table.
    pub const fn number(self) -> u8 {
        self as u8
    }

    /// A token, and no node.
    pub const fn is_token(self) -> bool {
        self.number() < 128
    }

    /// Whitespace and comments, which the grammar never sees.
    pub const fn is_trivia(self) -> bool {
        matches!(self, Kind::Whitespace | Kind::Comment | Kind::MultilineComment)
    }
}

impl From<Kind> for u8 {
    fn from(kind: Kind) -> u8 {
        kind.number()
    }
}

impl From<Kind> for u32 {
    fn from(kind: Kind) -> u32 {
        kind.number().into()
    }
}

impl std::fmt::Display for Kind {
    fn fmt(&self, f: &mut std::fmt::Formatter<'_>) -> std::fmt::Result {
        f.pad(self.name())
    }
}
