//! Refusals: the list's numbers by name, with their places, and what they say in words.

use crate::{ARCHIVE_NODES, MAX_LIMIT, MAX_NODES};
use std::error::Error;
use std::fmt;

/// Makes `Cause` of the list, so that a cause is said once: what it is, its name and its number.
macro_rules! causes {
    ($($(#[$told:meta])+ $cause:ident = $number:literal,)+) => {
        /// Why something is refused: the list of `include/balduqen.h`, in which N is the number of
        /// nodes and K the page limit. Its number 5 is retired.
        ///
        /// The list grows, so that a match needs a rest.
        #[non_exhaustive]
        #[derive(Clone, Copy, Debug, PartialEq, Eq, PartialOrd, Ord, Hash)]
        pub enum Cause {
            $(#[doc = concat!("Refusal ", $number, ".")] $(#[$told])+ $cause,)+
            /// A number that is not in this crate's list, as of a library that is newer than it.
            Unlisted(u32),
        }

        impl Cause {
            /// The causes of the list, in its order.
            pub const ALL: &'static [Cause] = &[$(Cause::$cause),+];

            /// Its number in the list or, unlisted, the number that is not there.
            #[must_use]
            pub fn number(self) -> u32 {
                match self {
                    $(Cause::$cause => $number,)+
                    Cause::Unlisted(number) => number,
                }
            }
        }

        // Outside of this crate a match on every cause compiles with a rest, and not without one.
        #[cfg(doctest)]
        #[doc = concat!(
            "```\nuse balduqen::Cause::*;\nmatch BadWalk { ",
            $(stringify!($cause), " | ",)+ "Unlisted(_) => {}, _ => {} }\n```\n",
            "```compile_fail\nuse balduqen::Cause::*;\nmatch BadWalk { ",
            $(stringify!($cause), " | ",)+ "Unlisted(_) => {} }\n```\n",
        )]
        struct EveryCause;
    };
}

causes! {
    /// The table is under 4 bytes; place 0.
    ShortTable = 1,
    /// N is 0 or over 2048; place N.
    BadCount = 2,
    /// K is 0 or over 1024; place K.
    BadLimit = 3,
    /// The table's length is not 4 + 8 * N; the place is the right length.
    BadLength = 4,
    /// The walk from node 1 does not meet 1, 2, .., N; the place is how many nodes it met in order,
    /// or 0 if node 1 has a sibling.
    BadWalk = 6,
    /// A node outweighs K, so that no plan holds the tree; the place is the first such node.
    HeavyNode = 7,
    /// The marks are not N; place N.
    BadMarks = 8,
    /// The scratch is under 4 * N * (K + 3) words; the place is that number.
    ShortScratch = 9,
    /// A mark is not allowed; the place is the first such node.
    BadMark = 10,
    /// A page weighs over K; the place is the first such page.
    HeavyPage = 11,
    /// An output buffer has the wrong length; the place is the right one.
    BadOutput = 12,
    /// No tree and plan write this archive in its edition; place 0.
    NoArchive = 13,
    /// A label is 0, a lot that nobody has filed; the place is the first such node.
    NoLabel = 14,
    /// The tree has more nodes than the first edition takes; place N.
    ManyNodes = 15,
}

impl Cause {
    /// The cause that has this number in the list.
    #[must_use]
    pub fn of(number: u32) -> Option<Cause> {
        let mut all = Cause::ALL.iter().copied();
        all.find(|cause| cause.number() == number)
    }
}

/// A cause and its place.
#[derive(Clone, Copy, Debug, PartialEq, Eq, Hash)]
pub struct Refusal {
    /// Why.
    pub cause: Cause,
    /// Where: a node, a page, a length or a count, as the cause has it.
    pub place: u32,
}

impl Refusal {
    /// The refusal that an answer is, unless its number is 0.
    pub(crate) fn unless_accepted(number: u32, place: u32) -> Result<(), Refusal> {
        match number {
            0 => Ok(()),
            _ => Err(Refusal {
                cause: Cause::of(number).unwrap_or(Cause::Unlisted(number)),
                place,
            }),
        }
    }
}

/// Number and place as the page program writes them, then the list's words.
impl fmt::Display for Refusal {
    fn fmt(&self, f: &mut fmt::Formatter) -> fmt::Result {
        let place = self.place;
        write!(f, "refused {} at {place}: ", self.cause.number())?;
        match self.cause {
            Cause::ShortTable => write!(f, "the table is under 4 bytes"),
            Cause::BadCount => write!(f, "{place} nodes, and a table has 1 to {MAX_NODES}"),
            Cause::BadLimit => write!(f, "page limit {place}, and it is 1 to {MAX_LIMIT}"),
            Cause::BadLength => write!(f, "the table has not the {place} bytes of its nodes"),
            Cause::BadWalk if place == 0 => write!(f, "node 1 has a sibling"),
            Cause::BadWalk => write!(f, "the walk goes wrong after node {place}"),
            Cause::HeavyNode => write!(f, "node {place} outweighs the page limit"),
            Cause::BadMarks => write!(f, "the marks are not {place}, one for each node"),
            Cause::ShortScratch => write!(f, "the scratch is under {place} words"),
            Cause::BadMark => write!(f, "the mark of node {place} is not allowed"),
            Cause::HeavyPage => write!(f, "page {place} weighs over the page limit"),
            Cause::BadOutput => write!(f, "the output has not its {place} bytes"),
            Cause::NoArchive => write!(f, "no tree and plan write this archive"),
            Cause::NoLabel => write!(f, "node {place} has label 0, a lot that nobody has filed"),
            Cause::ManyNodes => write!(
                f,
                "{place} nodes, and the first edition takes up to {ARCHIVE_NODES}"
            ),
            Cause::Unlisted(_) => write!(f, "this number is not in the list"),
        }
    }
}

impl Error for Refusal {}
