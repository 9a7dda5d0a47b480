//! The film maker's price of a plan (request Seven), with the judge's refusals, and the saving of
//! the best plan against the single-cut plan, with a planner's buffers and refusals.

use super::{greedy, judge, pages, plan_best, read, Answer, Price, Saving, Tree};

/// What a page costs, by its fill.
const CENTS: [u32; 16] = [
    410, 405, 398, 390, 380, 368, 355, 340, 324, 306, 287, 266, 244, 221, 196, 90,
];

/// The total of a feasible plan: what all its pages cost, the root page among them.
fn total(tree: &Tree, marks: &[u8]) -> u32 {
    let fills = pages(tree, marks)
        .into_iter()
        .map(|page| 15 * page.weight / tree.limit);
    fills.map(|fill| CENTS[fill as usize]).sum()
}

pub fn price(table: &[u8], marks: &[u8]) -> Price {
    let Answer {
        number,
        place,
        pages,
        root,
    } = judge(table, marks);
    let cents = match number {
        0 => total(&read(table).expect("the judge accepts the tree"), marks),
        _ => 0,
    };
    Price {
        number,
        place,
        pages,
        root,
        cents,
    }
}

pub fn saving(table: &[u8], marks: &mut [u8], scratch: &mut [u32]) -> Saving {
    let Answer {
        number,
        place,
        pages,
        root,
    } = plan_best(table, marks, scratch);
    let saving = match number {
        0 => {
            let tree = read(table).expect("the planner accepts the tree");
            total(&tree, &greedy::single(&tree)) as i32 - total(&tree, marks) as i32
        }
        _ => 0,
    };
    Saving {
        number,
        place,
        pages,
        root,
        saving,
    }
}
