//! The proved library in the forms that the plain code has, so that both are measured alike.

use crate::archive::Film;
use crate::planner::{Kind, Planner};
use crate::price::{Pricer, Saver};
use crate::sheets::Printer;
use balduqen::doors;

/// The library's planner.
pub fn planner(kind: Kind) -> Planner {
    match kind {
        Kind::Rightmost => doors::plan_rightmost,
        Kind::DepthFirst => doors::plan_depth_first,
        Kind::Single => doors::plan_single,
        Kind::Pair => doors::plan_pair,
        Kind::Level => doors::plan_level,
        Kind::Best => doors::plan_best,
    }
}

/// The library's price of a plan.
pub const PRICE: Pricer = doors::price;

/// The library's saving.
pub const SAVING: Saver = doors::saving;

/// The library's sheets.
pub const PRINT_SHEETS: Printer = doors::print_sheets;

/// The library's film, by edition.
pub const FILM: [Film; 2] = [
    Film {
        write: doors::write_archive,
        read: doors::read_archive,
        convert: doors::convert_to_2,
    },
    Film {
        write: doors::write_archive2,
        read: doors::read_archive2,
        convert: doors::convert_to_1,
    },
];
