//! The form of a planner, which the library and the plain ones share.

use crate::tree::Page;
pub use balduqen::doors::Answer;

/// Acceptance of a plan with these pages.
pub fn accepted(pages: &[Page]) -> Answer {
    Answer::accepted(pages.len(), pages[0].weight)
}

/// Table, marks, scratch.
pub type Planner = fn(&[u8], &mut [u8], &mut [u32]) -> Answer;

#[derive(Clone, Copy, Debug, PartialEq, Eq)]
pub enum Kind {
    Rightmost,
    DepthFirst,
    Single,
    Pair,
    Level,
    Best,
}

pub const KINDS: [Kind; 6] = [
    Kind::Rightmost,
    Kind::DepthFirst,
    Kind::Single,
    Kind::Pair,
    Kind::Level,
    Kind::Best,
];

/// Those whose steps are linear in the nodes.
pub const QUICK: [Kind; 2] = [Kind::Rightmost, Kind::DepthFirst];

/// Those that cut the heaviest first.
pub const GREEDY: [Kind; 2] = [Kind::Single, Kind::Pair];

/// Those that fill columns of the scratch.
pub const COLUMNS: [Kind; 2] = [Kind::Level, Kind::Best];

impl Kind {
    pub fn name(self) -> &'static str {
        match self {
            Kind::Rightmost => "rightmost",
            Kind::DepthFirst => "depth-first",
            Kind::Single => "single",
            Kind::Pair => "pair",
            Kind::Level => "level",
            Kind::Best => "best",
        }
    }
}
