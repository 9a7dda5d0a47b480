//! A tree as a list of nodes in the order of the walk, child before sibling.

use std::ops::RangeInclusive;

/// What a word of a table holds. That a count, a limit or a label is in its own range is left to the
/// library, which has a number for each.
pub const WORDS: RangeInclusive<u32> = 0..=65535;

/// A node. Parent, first child and siblings are node numbers, 0 for none.
#[derive(Clone, Debug, PartialEq, Eq)]
pub struct Node {
    /// 0 is a note, kept on the margin of the film.
    pub weight: u32,
    pub label: u32,
    /// Levels below the root.
    pub depth: usize,
    pub parent: usize,
    /// The sibling just before.
    pub before: usize,
    pub first_child: usize,
    pub next_sibling: usize,
}

/// Nodes are numbered from 1, and node 1 is the root.
#[derive(Clone, Debug, PartialEq, Eq)]
pub struct Tree {
    pub limit: u32,
    nodes: Vec<Node>,
    /// From the root to the node that was added last.
    path: Vec<usize>,
}

impl Tree {
    pub fn new(limit: u32) -> Tree {
        Tree {
            limit,
            nodes: vec![],
            path: vec![],
        }
    }

    /// Adds the next node of the walk: the first has depth 0, a later one has from 1 to one more
    /// than the node before it.
    pub fn add(&mut self, depth: usize, weight: u32, label: u32) {
        let number = self.count() + 1;
        let parent = depth.checked_sub(1).map_or(0, |above| self.path[above]);
        let before = self.path.get(depth).copied().unwrap_or(0);
        if before != 0 {
            self.nodes[before - 1].next_sibling = number;
        } else if parent != 0 {
            self.nodes[parent - 1].first_child = number;
        }
        self.path.truncate(depth);
        self.path.push(number);
        self.nodes.push(Node {
            weight,
            label,
            depth,
            parent,
            before,
            first_child: 0,
            next_sibling: 0,
        });
    }

    pub fn count(&self) -> usize {
        self.nodes.len()
    }

    pub fn numbers(&self) -> RangeInclusive<usize> {
        1..=self.count()
    }

    pub fn node(&self, number: usize) -> &Node {
        &self.nodes[number - 1]
    }

    pub fn children(&self, number: usize) -> Vec<usize> {
        let mut children = vec![];
        let mut child = self.node(number).first_child;
        while child != 0 {
            children.push(child);
            child = self.node(child).next_sibling;
        }
        children
    }
}

#[cfg(test)]
pub mod tests {
    use super::*;

    pub fn case_e() -> Tree {
        let mut tree = Tree::new(5);
        for (index, (depth, weight)) in [(0, 5), (1, 2), (1, 1), (2, 2), (2, 2), (1, 1)]
            .into_iter()
            .enumerate()
        {
            tree.add(depth, weight, index as u32 + 1);
        }
        tree
    }

    /// A tree of any shape, the same for the same seed.
    pub fn random_tree(seed: u32, count: usize) -> Tree {
        let mut state = seed;
        let mut draw = |most: usize| {
            state = state.wrapping_mul(1_664_525).wrapping_add(1_013_904_223);
            (state >> 16) as usize % (most + 1)
        };
        let mut tree = Tree::new(9);
        tree.add(0, 3, 1);
        for number in 2..=count {
            let depth = 1 + draw(tree.node(number - 1).depth);
            tree.add(depth, draw(9) as u32, draw(65535) as u32);
        }
        tree
    }

    #[test]
    fn links_of_case_e() {
        let tree = case_e();
        let parents: Vec<usize> = tree.numbers().map(|n| tree.node(n).parent).collect();
        let before: Vec<usize> = tree.numbers().map(|n| tree.node(n).before).collect();
        assert_eq!(parents, [0, 1, 1, 3, 3, 1]);
        assert_eq!(before, [0, 0, 2, 0, 4, 3]);
        assert_eq!(tree.children(1), [2, 3, 6]);
        let links = |number| {
            (
                tree.node(number).first_child,
                tree.node(number).next_sibling,
            )
        };
        assert_eq!([1, 3, 5, 6].map(links), [(2, 0), (4, 6), (0, 0), (0, 0)]);
    }
}
