//! The single planner (KM) and the pair planner (EKM).

use super::Tree;

/// Children first: while a node and its uncut remainder exceed the limit, cuts the child with the
/// heaviest remainder, the earliest among equals. Gives, for each node, whether it is cut.
fn cut(tree: &Tree, children: impl Fn(usize) -> Vec<usize>) -> Vec<bool> {
    let mut is_cut = vec![false; tree.node_count() + 1];
    let mut remainder = vec![0; tree.node_count() + 1];
    // Every child, in the tree or in the two-way tree, has a higher number than its parent.
    for node in tree.nodes().rev() {
        let mut uncut = children(node);
        remainder[node] =
            tree.weights[node] + uncut.iter().map(|&child| remainder[child]).sum::<u32>();
        while remainder[node] > tree.limit {
            let heaviest = uncut.iter().map(|&child| remainder[child]).max().unwrap();
            let place = uncut
                .iter()
                .position(|&child| remainder[child] == heaviest)
                .unwrap();
            let child = uncut.remove(place);
            is_cut[child] = true;
            remainder[node] -= remainder[child];
        }
    }
    is_cut
}

pub fn single(tree: &Tree) -> Vec<u8> {
    let is_cut = cut(tree, |node| tree.children[node].clone());
    tree.nodes()
        .map(|node| u8::from(node == 1 || is_cut[node]))
        .collect()
}

pub fn pair(tree: &Tree) -> Vec<u8> {
    // The left side comes first, so of equal sides it is the one cut.
    let sides = |node: usize| {
        let left = tree.children[node].first().copied();
        let right = tree.after[node];
        left.into_iter().chain(right).collect()
    };
    let is_cut = cut(tree, sides);
    let mut marks: Vec<u8> = vec![];
    for node in tree.nodes() {
        let mark = if node == 1 || is_cut[node] {
            1
        } else {
            match tree.before[node] {
                None => 0,
                Some(sibling) if marks[sibling - 1] == 0 => 0,
                Some(_) => 2,
            }
        };
        marks.push(mark);
    }
    marks
}
