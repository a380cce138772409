//! What a call answers in place of a panic.

use std::error;
use std::fmt;

/// The rows of document 01's table, each with its name here, number and sentence: said once.
macro_rules! refusals {
    ($($(#[$doc:meta])* $name:ident = $number:literal: $sentence:literal,)*) => {
        /// Why the library refused a call: a number and a sentence, the same for every caller of it.
        ///
        /// This crate lends what is asked and hands in frozen graphs alone, so that 3, 6, 9, 10, 11 and 24 never come from it.
        #[derive(Clone, Copy, Debug, PartialEq, Eq, Hash)]
        #[non_exhaustive]
        pub enum Refusal {
            $($(#[$doc])* #[doc = $sentence] $name = $number,)*
        }

        impl Refusal {
            /// The refusal of this number.
            pub fn from_number(number: u32) -> Option<Refusal> {
                match number {
                    $($number => Some(Refusal::$name),)*
                    _ => None,
                }
            }

            /// Exactly when it comes.
            pub fn sentence(self) -> &'static str {
                match self {
                    $(Refusal::$name => $sentence,)*
                }
            }
        }
    };
}

refusals! {
    TooManyNodes = 1: "more than 1,024 nodes",
    LinkColumns = 2: "link columns differ in length or exceed 16,384",
    LinkNode = 3: "a link names a node not below the count",
    Loop = 4: "a loop",
    ZeroWeight = 5: "a link weight of 0",
    NotAscending = 6: "links not strictly ascending",
    OrderLength = 7: "order length is not the node count",
    OrderNode = 8: "order names a node not below the count, or one twice",
    BuildRoom = 9: "ranks below n places, starts below n + 1, a table's columns of unequal length, or scratch below its stated formula",
    PoolFull = 10: "live arcs would exceed the lent pool",
    TableFull = 11: "an entry would exceed its table",
    SumTooLarge = 12: "a pair sum exceeds 2^40, with no witness and no arc that weighs at most the sum",
    BadTables = 20: "hierarchy breaks a table rule",
    Ends = 21: "sources or targets: none, more than 16, or columns differ",
    EndNode = 22: "a source or target not below the node count",
    Offset = 23: "an offset above 2^40 that isn't the mark",
    QueryRoom = 24: "path buffer below n places, or query scratch below its formula",
    WalkTooLong = 25: "the unpacked walk is longer than the path buffer",
}

impl Refusal {
    /// The number of document 01's table.
    pub fn number(self) -> u32 {
        self as u32
    }
}

impl fmt::Display for Refusal {
    fn fmt(&self, f: &mut fmt::Formatter) -> fmt::Result {
        write!(f, "refused {}: {}", self.number(), self.sentence())
    }
}

impl error::Error for Refusal {}

/// Why a call of this crate did nothing.
#[derive(Clone, Copy, Debug, PartialEq, Eq, Hash)]
#[non_exhaustive]
pub enum Error {
    /// The library refused it.
    Refused(Refusal),
    /// A frozen graph takes no more edges, and is not frozen twice.
    Frozen,
    /// The graph was not frozen yet.
    NotFrozen,
    /// A number that the library's columns of 32 bits cannot hold. It is not cut.
    TooWide { what: &'static str, number: usize },
    /// A number that no contract of the library allows: another library is linked.
    Unknown(u32),
}

impl Error {
    /// The number of the refusal, if it is one.
    pub fn number(self) -> Option<u32> {
        match self {
            Error::Refused(refusal) => Some(refusal.number()),
            _ => None,
        }
    }
}

impl fmt::Display for Error {
    fn fmt(&self, f: &mut fmt::Formatter) -> fmt::Result {
        match self {
            Error::Refused(refusal) => refusal.fmt(f),
            Error::Frozen => write!(f, "the graph is frozen"),
            Error::NotFrozen => write!(f, "the graph is not frozen yet"),
            Error::TooWide { what, number } => write!(f, "{what} {number} has more than 32 bits"),
            Error::Unknown(number) => write!(f, "the linked library answered {number}, which it never does"),
        }
    }
}

impl error::Error for Error {
    fn source(&self) -> Option<&(dyn error::Error + 'static)> {
        match self {
            Error::Refused(refusal) => Some(refusal),
            _ => None,
        }
    }
}

impl From<Refusal> for Error {
    fn from(refusal: Refusal) -> Error {
        Error::Refused(refusal)
    }
}

/// The library's number as an answer: 0 is none of the refusals.
pub(crate) fn answered(number: u32) -> Result<(), Error> {
    match (number, Refusal::from_number(number)) {
        (0, _) => Ok(()),
        (_, Some(refusal)) => Err(Error::Refused(refusal)),
        (_, None) => Err(Error::Unknown(number)),
    }
}

/// A number for a column of 32 bits.
pub(crate) fn narrow(what: &'static str, number: usize) -> Result<u32, Error> {
    u32::try_from(number).map_err(|_| Error::TooWide { what, number })
}
