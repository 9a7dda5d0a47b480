//! The six planner entries: their refusals, with 8 and 9, the marks and the scratch left behind.

use super::{best, greedy, quick, read, verdict, Answer, Tree};

/// The scratch words that a planner asks for.
pub fn scratch_length(nodes: usize, limit: usize) -> usize {
    4 * nodes * (limit + 3)
}

pub fn plan_best(table: &[u8], marks: &mut [u8], scratch: &mut [u32]) -> Answer {
    plan(table, marks, scratch, best::best)
}

pub fn plan_level(table: &[u8], marks: &mut [u8], scratch: &mut [u32]) -> Answer {
    plan(table, marks, scratch, best::level)
}

pub fn plan_single(table: &[u8], marks: &mut [u8], scratch: &mut [u32]) -> Answer {
    plan(table, marks, scratch, greedy::single)
}

pub fn plan_pair(table: &[u8], marks: &mut [u8], scratch: &mut [u32]) -> Answer {
    plan(table, marks, scratch, greedy::pair)
}

pub fn plan_rightmost(table: &[u8], marks: &mut [u8], scratch: &mut [u32]) -> Answer {
    plan(table, marks, scratch, quick::rightmost)
}

pub fn plan_depth_first(table: &[u8], marks: &mut [u8], scratch: &mut [u32]) -> Answer {
    plan(table, marks, scratch, quick::depth_first)
}

fn plan(table: &[u8], marks: &mut [u8], scratch: &mut [u32], make: fn(&Tree) -> Vec<u8>) -> Answer {
    let tree = match read(table) {
        Ok(tree) => tree,
        Err(refusal) => return refusal,
    };
    let count = tree.node_count();
    if marks.len() != count {
        return Answer::refused(8, count);
    }
    let asked = scratch_length(count, tree.limit as usize);
    if scratch.len() < asked {
        return Answer::refused(9, asked);
    }
    let made = make(&tree);
    let answer = verdict(&tree, &made);
    assert!(
        answer.is_accepted(),
        "a planner made a plan that is refused: {answer:?}"
    );
    marks.copy_from_slice(&made);
    // Also the words beyond those asked for.
    scratch.fill(0);
    answer
}
