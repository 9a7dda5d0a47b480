//! The archive, in its two editions.

use crate::doors::{self, Answer};
use crate::{archive_length, judge, table_length, word, Refusal, UnknownEdition, Verdict};
use std::str::FromStr;

/// The first word of edition 2. No archive of the first edition begins with it.
const EDITION_WORD: u16 = 8194;

/// The archive's editions, which `include/balduqen.h` lays out.
#[derive(Clone, Copy, Debug, PartialEq, Eq)]
pub enum Edition {
    /// Up to 1024 nodes; every film deck takes it.
    First,
    /// As many nodes as a table has, and how many of them each page has.
    Second,
}

impl Edition {
    /// Both editions, the first one first.
    pub const ALL: [Edition; 2] = [Edition::First, Edition::Second];

    /// 1 or 2, by which an edition is also read from text.
    #[must_use]
    pub fn number(self) -> usize {
        match self {
            Edition::First => 1,
            Edition::Second => 2,
        }
    }

    /// The edition that film of this one is converted to.
    #[must_use]
    pub fn other(self) -> Edition {
        match self {
            Edition::First => Edition::Second,
            Edition::Second => Edition::First,
        }
    }

    /// The edition that the first word tells, be the rest sound or not.
    #[must_use]
    pub fn of(archive: &[u8]) -> Edition {
        match word(archive, 0) {
            EDITION_WORD => Edition::Second,
            _ => Edition::First,
        }
    }

    /// The words before N, K and P.
    fn words_before(self) -> usize {
        self.number() - 1
    }
}

impl FromStr for Edition {
    type Err = UnknownEdition;

    fn from_str(name: &str) -> Result<Edition, UnknownEdition> {
        let mut all = Edition::ALL.into_iter();
        all.find(|edition| edition.number().to_string() == name)
            .ok_or_else(|| UnknownEdition::new(name))
    }
}

/// What film tells.
#[must_use]
#[derive(Clone, Debug, PartialEq, Eq)]
pub struct Film {
    /// The edition that it is written in.
    pub edition: Edition,
    /// The tree, as a table.
    pub table: Vec<u8>,
    /// The plan: a mark a node.
    pub marks: Vec<u8>,
    /// The plan's page count and root weight.
    pub verdict: Verdict,
}

/// The archive of a tree and a plan. Refuses 1 to 4, 6 to 8, 10, 11 and 14, where the judge does,
/// and in the first edition 15.
pub fn write_archive(edition: Edition, table: &[u8], marks: &[u8]) -> Result<Vec<u8>, Refusal> {
    let verdict = judge(table, marks)?;
    let mut archive = vec![0; archive_length(edition, verdict.pages, marks.len())];
    let door = match edition {
        Edition::First => doors::write_archive,
        Edition::Second => doors::write_archive2,
    };
    door(table, marks, &mut archive).result()?;
    Ok(archive)
}

/// The tree and the plan that an archive of either edition was written from. Refuses 13. A label 0
/// on older film is read like any other; what is read then is refused by all that is handed a tree.
pub fn read_archive(archive: &[u8]) -> Result<Film, Refusal> {
    let edition = Edition::of(archive);
    let nodes = usize::from(word(archive, edition.words_before()));
    let (mut table, mut marks) = (vec![0; table_length(nodes)], vec![0; nodes]);
    let door = match edition {
        Edition::First => doors::read_archive,
        Edition::Second => doors::read_archive2,
    };
    let verdict = door(archive, &mut table, &mut marks).result()?;
    Ok(Film {
        edition,
        table,
        marks,
        verdict,
    })
}

/// Film of the other edition with the same tree and plan. Refuses 13, then 14 to edition 2 and 15
/// to the first.
pub fn convert(archive: &[u8]) -> Result<Vec<u8>, Refusal> {
    let from = Edition::of(archive);
    let at = from.words_before();
    let [nodes, pages] = [at, at + 2].map(|index| usize::from(word(archive, index)));
    let mut out = vec![0; archive_length(from.other(), pages, nodes)];
    let door: fn(&[u8], &mut [u8]) -> Answer = match from {
        Edition::First => doors::convert_to_2,
        Edition::Second => doors::convert_to_1,
    };
    door(archive, &mut out).result()?;
    Ok(out)
}
