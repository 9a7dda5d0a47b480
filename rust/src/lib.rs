//! The proved library for Rust: it plans how a tree is laid on pages of film, judges plans, writes
//! and reads the film's archive, prints leader sheets and prices plans. Slices go in; what is made
//! comes out, or a refusal with its cause and place.
//!
//! ```
//! use balduqen::{plan, Cause, Planner};
//!
//! // One node and limit 5; then its weight and its label, no child and no sibling.
//! let table = [0, 1, 0, 5, 0, 3, 0, 7, 0, 0, 0, 0];
//! let best = plan(Planner::Best, &table)?;
//! assert_eq!((best.verdict.pages, best.verdict.root), (1, 3));
//!
//! let heavy = [0, 1, 0, 5, 0, 9, 0, 7, 0, 0, 0, 0];
//! let refusal = plan(Planner::Best, &heavy).unwrap_err();
//! assert_eq!((refusal.cause, refusal.place), (Cause::HeavyNode, 1));
//! # Ok::<(), balduqen::Refusal>(())
//! ```
//!
//! A table and marks are bytes as `include/balduqen.h` tells them. Nothing is asked of what they
//! hold or how long they are, and no function panics on any value. A call uses up to `STACK` bytes
//! of stack. Where the buffers are to be the caller's own, `doors` has each function with lent
//! buffers.

#![deny(missing_docs)]

pub mod doors;
mod film;
mod length;
mod plan;
mod refusal;
mod unknown;

pub use film::{convert, read_archive, write_archive, Edition, Film};
pub use length::{
    archive_length, scratch_length, sheets_length, table_length, ARCHIVE_NODES, MAX_LIMIT,
    MAX_NODES, STACK,
};
pub use plan::{judge, plan, price, print_sheets, saving, Plan, Planner, Priced, Saved};
pub use refusal::{Cause, Refusal};
pub use unknown::{UnknownEdition, UnknownPlanner};

/// The version of this crate, of the header and of the commands. Each request that lands adds one
/// to its middle number.
pub const VERSION: &str = env!("CARGO_PKG_VERSION");

/// The page count of an accepted plan, and the weight of its root page.
#[derive(Clone, Copy, Debug, PartialEq, Eq)]
pub struct Verdict {
    /// How many pages the plan has.
    pub pages: usize,
    /// What the root page weighs.
    pub root: u32,
}

/// Whether the table holds a tree that can be planned. Refuses 1 to 4, 6, 7 and 14.
pub fn read_tree(table: &[u8]) -> Result<(), Refusal> {
    doors::read_tree(table).result().map(|_| ())
}

/// A word of a table or an archive by its index, or 0 where the bytes end before it. It has 16
/// bits, so that no length that is worked out from words saturates.
fn word(bytes: &[u8], index: usize) -> u16 {
    match bytes.get(2 * index..) {
        Some([high, low, ..]) => u16::from_be_bytes([*high, *low]),
        _ => 0,
    }
}
