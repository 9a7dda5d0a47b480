//! A tidy tree: each parent over the middle of its children, and in each level no two nodes closer
//! than one step.

use crate::tree::Tree;

/// The part of a branch in each level below its top node, from left to right, with that node at 0.
type Outline = Vec<(i32, i32)>;

/// Where each node stands across the picture; the leftmost is at 0.
pub fn across(tree: &Tree, step: i32) -> Vec<i32> {
    let shifts = shifts(tree, step);
    let mut places: Vec<i32> = vec![];
    // Parents come before their children.
    for number in tree.numbers() {
        let above = match tree.node(number).parent {
            0 => 0,
            parent => places[parent - 1],
        };
        places.push(above + shifts[number - 1]);
    }
    let least = places.iter().copied().min().unwrap_or(0);
    places.iter().map(|place| place - least).collect()
}

/// How far each node stands to the right of its parent.
fn shifts(tree: &Tree, step: i32) -> Vec<i32> {
    let mut shifts = vec![0; tree.count()];
    let mut outlines: Vec<Outline> = vec![vec![]; tree.count()];
    // Children come after their parents, and their outlines are wanted first.
    for number in tree.numbers().rev() {
        let children = tree.children(number);
        let mut below: Outline = vec![];
        for &child in &children {
            let outline = std::mem::take(&mut outlines[child - 1]);
            shifts[child - 1] = room(&below, &outline, step);
            join(&mut below, &outline, shifts[child - 1]);
        }
        let middle = children.last().map_or(0, |&last| shifts[last - 1] / 2);
        for child in children {
            shifts[child - 1] -= middle;
        }
        let lower = below.iter().map(|(l, r)| (l - middle, r - middle));
        outlines[number - 1] = std::iter::once((0, 0)).chain(lower).collect();
    }
    shifts
}

/// The least shift that keeps a branch one step to the right of what is there.
fn room(there: &Outline, branch: &Outline, step: i32) -> i32 {
    let levels = there.iter().zip(branch);
    levels.map(|(l, r)| l.1 - r.0 + step).max().unwrap_or(0)
}

fn join(there: &mut Outline, branch: &Outline, shift: i32) {
    for (level, &(left, right)) in branch.iter().enumerate() {
        match there.get_mut(level) {
            Some(span) => span.1 = right + shift,
            None => there.push((left + shift, right + shift)),
        }
    }
}

#[cfg(test)]
mod tests {
    use super::*;
    use crate::tree::tests::{case_e, random_tree};

    #[test]
    fn case_e_is_even() {
        assert_eq!(across(&case_e(), 10), [10, 0, 10, 5, 15, 20]);
    }

    /// Nodes of a level come in order and at least a step apart.
    fn check_levels(tree: &Tree, places: &[i32], step: i32) {
        for number in tree.numbers() {
            let depth = tree.node(number).depth;
            let next = (number + 1..=tree.count()).find(|&n| tree.node(n).depth == depth);
            if let Some(next) = next {
                assert!(places[next - 1] - places[number - 1] >= step);
            }
        }
    }

    fn check_middles(tree: &Tree, places: &[i32]) {
        for number in tree.numbers() {
            let children = tree.children(number);
            if let (Some(first), Some(last)) = (children.first(), children.last()) {
                let middle = (places[first - 1] + places[last - 1]) / 2;
                assert!((places[number - 1] - middle).abs() <= 1);
            }
        }
    }

    #[test]
    fn tidy_on_random_trees() {
        for seed in 0..300 {
            let tree = random_tree(seed, 1 + seed as usize % 90);
            let places = across(&tree, 50);
            assert_eq!(places.iter().min(), Some(&0));
            check_levels(&tree, &places, 50);
            check_middles(&tree, &places);
        }
    }
}
