//! The entries of the model and of the library, so that a test can ask the same of both.

use crate::cases::Kind;
use crate::model::{self, Answer, Edition, Planner, Price, Saving};
use balduqen::doors;

/// An entry that judges a plan and fills a buffer: table, marks, output.
pub type Writer = fn(&[u8], &[u8], &mut [u8]) -> Answer;

/// Those of one edition of the archive.
pub struct Film {
    pub write: Writer,
    /// Archive, table, marks.
    pub read: fn(&[u8], &mut [u8], &mut [u8]) -> Answer,
    /// From film of this edition to film of the other: archive, output.
    pub convert: fn(&[u8], &mut [u8]) -> Answer,
}

/// All entries of one side.
pub struct Entries {
    pub read_tree: fn(&[u8]) -> Answer,
    pub judge: fn(&[u8], &[u8]) -> Answer,
    pub planner: fn(Kind) -> Planner,
    /// By edition.
    film: [Film; 2],
    pub print_sheets: Writer,
    /// Table, marks.
    pub price: fn(&[u8], &[u8]) -> Price,
    /// Table, marks, scratch.
    pub saving: fn(&[u8], &mut [u8], &mut [u32]) -> Saving,
}

impl Entries {
    pub fn film(&self, edition: Edition) -> &Film {
        &self.film[edition.number - 1]
    }
}

pub static MODEL: Entries = Entries {
    read_tree: model::read_tree,
    judge: model::judge,
    planner: Kind::model,
    film: [
        Film {
            write: model::write_archive,
            read: model::read_archive,
            convert: model::convert_to_2,
        },
        Film {
            write: model::write_archive2,
            read: model::read_archive2,
            convert: model::convert_to_1,
        },
    ],
    print_sheets: model::print_sheets,
    price: model::price,
    saving: model::saving,
};

pub static LIBRARY: Entries = Entries {
    read_tree: doors::read_tree,
    judge: doors::judge,
    planner: Kind::library,
    film: [
        Film {
            write: doors::write_archive,
            read: doors::read_archive,
            convert: doors::convert_to_2,
        },
        Film {
            write: doors::write_archive2,
            read: doors::read_archive2,
            convert: doors::convert_to_1,
        },
    ],
    print_sheets: doors::print_sheets,
    price: doors::price,
    saving: doors::saving,
};
