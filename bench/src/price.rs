//! The price of a plan, and the saving of the best plan against the single-cut plan, in plain Rust,
//! with all that the library's entries do: the tree is read and checked, plans are made and judged,
//! and the whole scratch is cleared.

use crate::tree::Tree;
use crate::{columns, plain};
use balduqen::doors::{Price, Saving};

/// What a page costs in cents, by its fill.
const CENTS: [u32; 16] = [
    410, 405, 398, 390, 380, 368, 355, 340, 324, 306, 287, 266, 244, 221, 196, 90,
];

/// Table, marks.
pub type Pricer = fn(&[u8], &[u8]) -> Price;

/// Table, marks, scratch.
pub type Saver = fn(&[u8], &mut [u8], &mut [u32]) -> Saving;

pub fn price(table: &[u8], marks: &[u8]) -> Price {
    match Tree::read(table) {
        Err(refusal) => Price::refused(refusal.number, refusal.place as usize),
        Ok(tree) if marks.len() != tree.count() => Price::refused(8, tree.count()),
        Ok(tree) => price_of(&tree, marks),
    }
}

pub fn saving(table: &[u8], marks: &mut [u8], scratch: &mut [u32]) -> Saving {
    match plain::read(table, marks, scratch) {
        Err(refusal) => Saving::refused(refusal.number, refusal.place as usize),
        Ok(tree) => {
            plain::single(&tree, marks, scratch);
            let single = price_of(&tree, marks);
            columns::best(&tree, marks, scratch);
            scratch.fill(0);
            let best = price_of(&tree, marks);
            let saving = single.cents as i32 - best.cents as i32;
            Saving::accepted(best.pages as usize, best.root, saving)
        }
    }
}

/// The price of a plan, which is judged before.
fn price_of(tree: &Tree, marks: &[u8]) -> Price {
    let pages = tree.pages(marks);
    let fills = pages
        .iter()
        .map(|page| 15 * page.weight as usize / tree.limit);
    let cents = fills.map(|fill| CENTS[fill]).sum();
    Price::accepted(pages.len(), pages[0].weight, cents)
}
