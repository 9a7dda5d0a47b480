//! The six planners in plain Rust, each with all that the library's entry does: the tree is read
//! and checked, the plan is made and judged, and the whole scratch is cleared.

use crate::planner::{Answer, Kind, Planner};
use crate::tree::Tree;
use crate::{columns, quick};
use balduqen::scratch_length;

pub fn planner(kind: Kind) -> Planner {
    match kind {
        Kind::Rightmost => |table, marks, scratch| plan(table, marks, scratch, quick::rightmost),
        Kind::DepthFirst => |table, marks, scratch| plan(table, marks, scratch, quick::depth_first),
        Kind::Single => |table, marks, scratch| plan(table, marks, scratch, single),
        Kind::Pair => |table, marks, scratch| plan(table, marks, scratch, pair),
        Kind::Level => |table, marks, scratch| plan(table, marks, scratch, columns::level),
        Kind::Best => |table, marks, scratch| plan(table, marks, scratch, columns::best),
    }
}

fn plan(
    table: &[u8],
    marks: &mut [u8],
    scratch: &mut [u32],
    lay: impl Fn(&Tree, &mut [u8], &mut [u32]),
) -> Answer {
    let tree = match read(table, marks, scratch) {
        Ok(tree) => tree,
        Err(refusal) => return refusal,
    };
    lay(&tree, marks, scratch);
    scratch.fill(0);
    tree.judge(marks)
}

/// The tree of a table, if it can be planned with these buffers, or the refusal.
pub fn read(table: &[u8], marks: &[u8], scratch: &[u32]) -> Result<Tree, Answer> {
    let tree = Tree::read(table)?;
    if marks.len() != tree.count() {
        return Err(Answer::refused(8, tree.count()));
    }
    let asked = scratch_length(tree.count(), tree.limit);
    if scratch.len() < asked {
        return Err(Answer::refused(9, asked));
    }
    Ok(tree)
}

pub fn single(tree: &Tree, marks: &mut [u8], _scratch: &mut [u32]) {
    marks.fill(0);
    let mut remainder = vec![0; tree.count() + 1];
    for node in (1..=tree.count()).rev() {
        let below: u32 = tree.children(node).map(|child| remainder[child]).sum();
        let mut total = tree.weight[node] + below;
        while total as usize > tree.limit {
            let child = heaviest_child(tree, &remainder, node);
            marks[child - 1] = 1;
            // With no remainder, it is not found again.
            total -= std::mem::take(&mut remainder[child]);
        }
        remainder[node] = total;
    }
    marks[0] = 1;
}

/// The earliest of the children with the heaviest remainder.
fn heaviest_child(tree: &Tree, remainder: &[u32], node: usize) -> usize {
    let heavier = |heaviest: usize, child: usize| match remainder[child] > remainder[heaviest] {
        true => child,
        false => heaviest,
    };
    let heaviest = tree.children(node).reduce(heavier);
    heaviest.expect("a node without children is within the limit")
}

fn pair(tree: &Tree, marks: &mut [u8], _scratch: &mut [u32]) {
    let mut cut = vec![false; tree.count() + 1];
    let mut remainder = vec![0; tree.count() + 1];
    for node in (1..=tree.count()).rev() {
        let (left, right) = (tree.first[node], tree.next[node]);
        let mut total = tree.weight[node] + remainder[left] + remainder[right];
        while total as usize > tree.limit {
            let side = match remainder[left] >= remainder[right] {
                true => left,
                false => right,
            };
            cut[side] = true;
            total -= std::mem::take(&mut remainder[side]);
        }
        remainder[node] = total;
    }
    cut[1] = true;
    for node in 1..=tree.count() {
        let before = tree.before[node];
        marks[node - 1] = match cut[node] {
            true => 1,
            false if before == 0 || marks[before - 1] == 0 => 0,
            false => 2,
        };
    }
}
