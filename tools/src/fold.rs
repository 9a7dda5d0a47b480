//! A tree as it is shown: each node by itself or, in a large tree, leaves of one page that are
//! siblings folded into a count, and so nodes of one page that hang one below the other.

use crate::plan::Plan;
use crate::tree::Tree;

/// Fewer nodes than this are not worth a fold.
const LEAST: usize = 4;

#[derive(Clone, Copy, Debug, PartialEq, Eq)]
pub enum Kind {
    One,
    Leaves,
    Chain,
}

/// The nodes that one shown node stands for: all from first to last.
#[derive(Clone, Copy, Debug, PartialEq, Eq)]
pub struct Fold {
    pub kind: Kind,
    pub first: usize,
    pub last: usize,
}

impl Fold {
    pub fn count(&self) -> usize {
        self.last - self.first + 1
    }
}

/// A tree and a plan with folds for nodes. Its pages have the numbers and weights of the plan's own.
pub struct Shown {
    pub tree: Tree,
    pub plan: Plan,
    folds: Vec<Fold>,
}

impl Shown {
    /// Each node by itself.
    pub fn whole(tree: &Tree, plan: &Plan) -> Shown {
        let one = |number| Fold {
            kind: Kind::One,
            first: number,
            last: number,
        };
        Shown::of(tree, plan, tree.numbers().map(one).collect())
    }

    pub fn folded(tree: &Tree, plan: &Plan) -> Shown {
        let mut folds = vec![];
        let mut number = 1;
        while number <= tree.count() {
            let last = |kind| Fold {
                kind,
                first: number,
                last: last_of(tree, plan, kind, number),
            };
            let longest = [Kind::Leaves, Kind::Chain].map(last);
            let fold = longest.into_iter().find(|fold| fold.count() >= LEAST);
            let fold = fold.unwrap_or(last(Kind::One));
            number = fold.last + 1;
            folds.push(fold);
        }
        Shown::of(tree, plan, folds)
    }

    fn of(tree: &Tree, plan: &Plan, folds: Vec<Fold>) -> Shown {
        let mut shown = Tree::new(tree.limit);
        // By node, the depth of its fold.
        let mut depths: Vec<usize> = vec![];
        let mut marks = vec![];
        for fold in &folds {
            let node = tree.node(fold.first);
            let depth = match node.parent {
                0 => 0,
                parent => depths[parent - 1] + 1,
            };
            let weight = (fold.first..=fold.last).map(|number| tree.node(number).weight);
            shown.add(depth, weight.sum(), node.label);
            depths.extend(vec![depth; fold.count()]);
            marks.push(plan.mark(fold.first));
        }
        let plan = Plan::new(&shown, marks).expect("a fold has the mark of its first node");
        Shown {
            tree: shown,
            plan,
            folds,
        }
    }

    pub fn fold(&self, shown: usize) -> Fold {
        self.folds[shown - 1]
    }

    /// The node or the nodes: '5', or '5–17'.
    pub fn name(&self, shown: usize) -> String {
        let Fold { first, last, .. } = self.fold(shown);
        range(first, last)
    }

    /// The first node and the last sibling of a page's run. Of a chain only the upper end is in it.
    pub fn run(&self, page: usize) -> (usize, usize) {
        let run = self.plan.page(page);
        let last = self.fold(run.last);
        match last.kind {
            Kind::Chain => (self.fold(run.first).first, last.first),
            _ => (self.fold(run.first).first, last.last),
        }
    }

    /// What a fold folds: '13 leaves', or nothing for a node by itself.
    pub fn folded_as(&self, shown: usize) -> String {
        let fold = self.fold(shown);
        match fold.kind {
            Kind::One => String::new(),
            Kind::Leaves => format!("{} leaves", fold.count()),
            Kind::Chain => format!("chain of {}", fold.count()),
        }
    }
}

/// Numbers from first to last, as a text.
pub fn range(first: usize, last: usize) -> String {
    match first == last {
        true => first.to_string(),
        false => format!("{first}\u{2013}{last}"),
    }
}

/// The last node that one of this kind goes on to.
fn last_of(tree: &Tree, plan: &Plan, kind: Kind, first: usize) -> usize {
    let is_leaf = |number: usize| tree.node(number).first_child == 0;
    let mut last = first;
    loop {
        let next = last + 1;
        let goes_on = next <= tree.count()
            && plan.page_of(next) == plan.page_of(first)
            && match kind {
                Kind::One => false,
                Kind::Leaves => tree.node(next).before == last && is_leaf(last) && is_leaf(next),
                Kind::Chain => tree.node(next).parent == last && tree.node(next).next_sibling == 0,
            };
        if !goes_on {
            return last;
        }
        last = next;
    }
}

#[cfg(test)]
mod tests {
    use super::*;
    use crate::tree::tests::{case_e, random_tree};

    fn plan(tree: &Tree, marks: &[u8]) -> Plan {
        Plan::new(tree, marks.to_vec()).unwrap()
    }

    /// A root, then chains and leaves: depths by node.
    fn tree(depths: &[usize]) -> Tree {
        let mut tree = Tree::new(9);
        for (&depth, label) in depths.iter().zip(1..) {
            tree.add(depth, 1, label);
        }
        tree
    }

    fn names(shown: &Shown) -> Vec<String> {
        let all = shown.tree.numbers();
        all.map(|number| format!("{} {}", shown.name(number), shown.folded_as(number)))
            .collect()
    }

    #[test]
    fn leaves_of_one_page_fold() {
        let tree = tree(&[0, 1, 1, 1, 1, 1, 1, 1, 1]);
        let kept = Shown::folded(&tree, &plan(&tree, &[1, 0, 0, 0, 0, 0, 0, 0, 0]));
        assert_eq!(names(&kept), ["1 ", "2\u{2013}9 8 leaves"]);
        // Two runs, and one leaf that stays between them.
        let runs = Shown::folded(&tree, &plan(&tree, &[1, 1, 2, 2, 2, 0, 1, 2, 2]));
        let wanted = ["1 ", "2\u{2013}5 4 leaves", "6 ", "7 ", "8 ", "9 "];
        assert_eq!(names(&runs), wanted);
        assert_eq!(runs.tree.node(2).weight, 4);
    }

    #[test]
    fn chains_of_one_page_fold() {
        let tree = tree(&[0, 1, 2, 3, 4, 5, 6, 6]);
        let shown = Shown::folded(&tree, &plan(&tree, &[1, 0, 0, 0, 0, 0, 0, 0]));
        assert_eq!(names(&shown), ["1\u{2013}6 chain of 6", "7 ", "8 "]);
        let cut = Shown::folded(&tree, &plan(&tree, &[1, 0, 1, 0, 0, 0, 0, 0]));
        assert_eq!(
            names(&cut),
            ["1 ", "2 ", "3\u{2013}6 chain of 4", "7 ", "8 "]
        );
        let depths: Vec<usize> = cut.tree.numbers().map(|n| cut.tree.node(n).depth).collect();
        assert_eq!(depths, [0, 1, 2, 3, 3]);
    }

    /// Whatever the tree and the plan, each node is in one fold, and pages keep numbers, runs and
    /// weights.
    #[test]
    fn folds_keep_the_pages() {
        for seed in 0..300 {
            let tree = random_tree(seed, 1 + seed as usize % 120);
            let marks = tree.numbers().map(|number| match tree.node(number).before {
                _ if number == 1 => 1,
                _ if (seed as usize + number) % 7 < 4 => 0,
                _ => 1,
            });
            let plan = plan(&tree, &marks.collect::<Vec<u8>>());
            let shown = Shown::folded(&tree, &plan);
            let weights =
                |plan: &Plan| -> Vec<u32> { plan.pages.iter().map(|page| page.weight).collect() };
            assert_eq!(weights(&shown.plan), weights(&plan));
            for (page, number) in plan.pages.iter().zip(1..) {
                assert_eq!(shown.run(number), (page.first, page.last));
            }
            let mut next = 1;
            for number in shown.tree.numbers() {
                let fold = shown.fold(number);
                assert_eq!(fold.first, next);
                next = fold.last + 1;
                for node in fold.first..=fold.last {
                    assert_eq!(plan.page_of(node), shown.plan.page_of(number));
                }
            }
            assert_eq!(next, tree.count() + 1);
        }
    }

    #[test]
    fn a_small_tree_is_whole() {
        let shown = Shown::whole(&case_e(), &plan(&case_e(), &[1, 1, 2, 1, 2, 2]));
        assert_eq!(shown.tree, case_e());
        assert_eq!(names(&shown), ["1 ", "2 ", "3 ", "4 ", "5 ", "6 "]);
    }
}
