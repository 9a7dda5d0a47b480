//! The rightmost planner (RS) and the depth-first planner (DFS), each in one pass over the nodes.

use crate::tree::Tree;

pub fn rightmost(tree: &Tree, marks: &mut [u8], _scratch: &mut [u32]) {
    marks.fill(0);
    let limit = tree.limit as u32;
    // A node gets the remainders of its children as they are passed, and then cuts some of them.
    let mut remainder = tree.weight.clone();
    // The neighbour left of a first child fits into no run.
    remainder[0] = limit + 1;
    for node in (1..=tree.count()).rev() {
        let mut total = remainder[node];
        let mut last = tree.last[node];
        while total > limit {
            let (mut first, mut left) = (last, tree.before[last]);
            let mut sum = remainder[last];
            while sum + remainder[left] <= limit {
                sum += remainder[left];
                marks[first - 1] = 2;
                (first, left) = (left, tree.before[left]);
            }
            marks[first - 1] = 1;
            total -= sum;
            last = left;
        }
        remainder[node] = total;
        remainder[tree.parent[node]] += total;
    }
    marks[0] = 1;
}

pub fn depth_first(tree: &Tree, marks: &mut [u8], _scratch: &mut [u32]) {
    let limit = tree.limit as u32;
    // The nodes from this one on are on the page begun last.
    let mut first = 1;
    let mut total = tree.weight[1];
    marks[0] = 1;
    for node in 2..=tree.count() {
        let (has_parent, has_sibling) = (tree.parent[node] >= first, tree.before[node] >= first);
        total += tree.weight[node];
        marks[node - 1] = if total > limit || !(has_parent || has_sibling) {
            first = node;
            total = tree.weight[node];
            1
        } else if has_parent {
            0
        } else {
            2
        };
    }
}
