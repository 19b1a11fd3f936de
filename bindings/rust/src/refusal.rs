//! Why an input was refused, and where.

use std::fmt;
use std::ops::Range;

use crate::Answer;

macro_rules! reasons {
    ($($number:literal $reason:ident $meaning:literal,)*) => {
        /// The refusals, by the scope's numbers.
        #[derive(Debug, Clone, Copy, PartialEq, Eq, Hash)]
        #[non_exhaustive]
        pub enum Reason {
            $(#[doc = concat!($number, ": ", $meaning, ".")] $reason,)*
            /// A number that this version of the bindings does not know.
            Unknown(u32),
        }

        impl Reason {
            /// Every reason that has a number of the scope, by number.
            pub const ALL: &'static [Reason] = &[$(Reason::$reason,)*];

            /// The reason that a number stands for.
            pub const fn of_number(number: u32) -> Reason {
                match number {
                    $($number => Reason::$reason,)*
                    _ => Reason::Unknown(number),
                }
            }

            /// The scope's number.
            pub const fn number(self) -> u32 {
                match self {
                    $(Reason::$reason => $number,)*
                    Reason::Unknown(number) => number,
                }
            }

            /// What the number means, in words.
            pub const fn meaning(self) -> &'static str {
                match self {
                    $(Reason::$reason => $meaning,)*
                    Reason::Unknown(_) => "a number that this version of the bindings does not know",
                }
            }
        }
    };
}

reasons! {
    1 Setting "the depth limit is not 1 to 256, or the separator is no token or is trivia",
    2 Lengths "the list of kinds and the list of lengths differ in length",
    3 Count "there are more than 65,535 tokens",
    4 TokenKind "a kind is not 1 to 127",
    5 Total "the tokens have more than 16,777,216 bytes in all",
    6 Expression "an expression should stand here",
    7 Grouping "two operators that bind alike claim this operand and neither comes first: parentheses must say which",
    8 Stream "a bracket of a macro call or an attribute is still open at the end",
    9 Stuck "no statement begins here",
    10 Depth "it is nested deeper than the depth limit allows",
    11 Room "the table has no row left",
    12 Job "a job's range is outside the lists or its entry is none of the three, or there are more than 400 jobs",
}

impl Reason {
    /// Whether the place is that of a token, or the end. The refusals of a call's arguments, 1 to 3 and 12, have none.
    const fn has_place(self) -> bool {
        !matches!(self, Reason::Setting | Reason::Lengths | Reason::Count | Reason::Job)
    }
}

/// A refused input: the number, the place and the bytes of the token there. The table that was lent to a single call holds zeros alone; a refused job
/// of a [`Night`](crate::Night) takes none of the table.
#[derive(Debug, Clone, PartialEq, Eq)]
pub struct Refusal {
    reason: Reason,
    place: usize,
    /// None if the reason has no place.
    bytes: Option<Range<u64>>,
}

impl Refusal {
    /// What a call that answered a number other than 0 says of these tokens.
    pub(crate) fn new(answer: &Answer, lens: &[u32]) -> Refusal {
        let reason = Reason::of_number(answer.number);
        let place = answer.place as usize;
        let bytes = || {
            let start = lens.iter().take(place).map(|len| u64::from(*len)).sum::<u64>();
            let length = lens.get(place).map_or(0, |len| u64::from(*len));
            start..start + length
        };
        Refusal { reason, place, bytes: reason.has_place().then(bytes) }
    }

    /// Why.
    pub fn reason(&self) -> Reason {
        self.reason
    }

    /// The scope's number, 1 to 12.
    pub fn number(&self) -> u32 {
        self.reason.number()
    }

    /// The index of the token where it was refused, or the token count for the end. Refusals 1 to 3 and 12 have no place, and 0 here.
    pub fn place(&self) -> usize {
        self.place
    }

    /// The bytes of the token at the place; empty at the end, and `None` for refusals 1 to 3 and 12.
    pub fn bytes(&self) -> Option<Range<u64>> {
        self.bytes.clone()
    }
}

impl fmt::Display for Refusal {
    fn fmt(&self, f: &mut fmt::Formatter<'_>) -> fmt::Result {
        write!(f, "refusal {}", self.number())?;
        if let Some(Range { start, end }) = self.bytes() {
            write!(f, " at token {}, bytes {start}..{end}", self.place)?;
        }
        write!(f, ": {}", self.reason.meaning())
    }
}

impl std::error::Error for Refusal {}
