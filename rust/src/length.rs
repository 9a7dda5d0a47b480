//! Buffer lengths, as the header's macros give them. Where a `usize` has no room for one it is
//! `usize::MAX`, which no buffer has.

use crate::Edition;

/// The most nodes of a table.
pub const MAX_NODES: usize = 2048;

/// The highest page limit.
pub const MAX_LIMIT: usize = 1024;

/// The most nodes of the archive's first edition.
pub const ARCHIVE_NODES: usize = 1024;

/// The bytes of stack that a call uses at most, on x86-64.
pub const STACK: usize = 98304;

/// The bytes of a table: 4 + 8 * nodes, or `usize::MAX` where that is more.
#[must_use]
pub fn table_length(nodes: usize) -> usize {
    nodes.saturating_mul(8).saturating_add(4)
}

/// The 32-bit words of a planner's scratch: 4 * nodes * (limit + 3), or `usize::MAX` where that is
/// more.
#[must_use]
pub fn scratch_length(nodes: usize, limit: usize) -> usize {
    let columns = limit.saturating_add(3);
    nodes.saturating_mul(columns).saturating_mul(4)
}

/// The bytes of an archive: 6 + 8 * pages + 8 * nodes, in edition 2 8 + 10 * pages + 8 * nodes, or
/// `usize::MAX` where that is more.
#[must_use]
pub fn archive_length(edition: Edition, pages: usize, nodes: usize) -> usize {
    let (head, page) = match edition {
        Edition::First => (6, 8),
        Edition::Second => (8, 10),
    };
    let pages = pages.saturating_mul(page);
    let nodes = nodes.saturating_mul(8);
    pages.saturating_add(nodes).saturating_add(head)
}

/// The bytes of leader sheets: 4860 for each 58 pages and for those that are left, or `usize::MAX`
/// where that is more.
#[must_use]
pub fn sheets_length(pages: usize) -> usize {
    pages.div_ceil(58).saturating_mul(4860)
}
