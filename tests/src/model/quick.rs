//! The rightmost planner (RS) and the depth-first planner (DFS).

use super::Tree;

/// Children first: while a node and its uncut remainder exceed the limit, cuts a run from the last
/// uncut child to the left.
pub fn rightmost(tree: &Tree) -> Vec<u8> {
    let mut marks = vec![0; tree.node_count()];
    marks[0] = 1;
    let mut remainder = vec![0; tree.node_count() + 1];
    // Every child has a higher number than its parent.
    for node in tree.nodes().rev() {
        let mut uncut = tree.children[node].clone();
        remainder[node] =
            tree.weights[node] + uncut.iter().map(|&child| remainder[child]).sum::<u32>();
        while remainder[node] > tree.limit {
            for child in last_run(&mut uncut, &remainder, tree.limit) {
                marks[child - 1] = 2;
                remainder[node] -= remainder[child];
            }
            // The run's leftmost was the last to be taken.
            let leftmost = tree.children[node][uncut.len()];
            marks[leftmost - 1] = 1;
        }
    }
    marks
}

/// Takes the last child away, and its left neighbours while the sum of the remainders stays within
/// the limit, also where fewer would do for the node.
fn last_run(uncut: &mut Vec<usize>, remainder: &[u32], limit: u32) -> Vec<usize> {
    let mut run = vec![];
    let mut sum = 0;
    while let Some(&child) = uncut.last() {
        sum += remainder[child];
        if sum > limit {
            break;
        }
        run.push(child);
        uncut.pop();
    }
    assert!(!run.is_empty(), "a remainder is within the limit");
    run
}

/// In node order: a node joins the page begun last where it fits in and its parent or its previous
/// sibling is there, and begins a page elsewhere.
pub fn depth_first(tree: &Tree) -> Vec<u8> {
    let mut marks = vec![];
    // The nodes of the page begun last; none before node 1.
    let mut page: Vec<usize> = vec![];
    for node in tree.nodes() {
        let weight: u32 = page.iter().map(|&member| tree.weights[member]).sum();
        let fits = weight + tree.weights[node] <= tree.limit;
        let has_parent = page.contains(&tree.parents[node]);
        let has_sibling = tree.before[node].is_some_and(|sibling| page.contains(&sibling));
        let mark = match (fits, has_parent, has_sibling) {
            (true, true, _) => 0,
            (true, false, true) => 2,
            _ => 1,
        };
        if mark == 1 {
            page.clear();
        }
        page.push(node);
        marks.push(mark);
    }
    marks
}
