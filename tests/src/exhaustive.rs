//! Exhaustive search over all plans of a small tree, and over all sets of sibling runs that hold it.
//!
//! Of the model they take the tree as its reader tells it. They decide by themselves which marks are
//! allowed, which runs hold the tree and what each page weighs, so that they lean on no judge and no
//! planner that they are compared with. A weight may be 0 or over the limit.

use crate::gen::{all_parents, all_weights, Table};
use crate::model::{read, Tree};

/// Page count, then root weight: the smaller pair is the better plan.
pub type Score = (usize, u32);

/// A run: its first node and its last sibling.
pub type Run = (usize, usize);

/// Calls `visit` with each list of allowed marks, once.
pub fn for_each_plan(tree: &Tree, mut visit: impl FnMut(&[u8])) {
    add_mark(tree, &mut vec![], &mut visit);
}

fn add_mark(tree: &Tree, marks: &mut Vec<u8>, visit: &mut impl FnMut(&[u8])) {
    if marks.len() == tree.node_count() {
        return visit(marks);
    }
    for mark in 0..=2 {
        if is_allowed(tree, marks, mark) {
            marks.push(mark);
            add_mark(tree, marks, visit);
            marks.pop();
        }
    }
}

/// Whether the next node may have this mark, after allowed marks of the nodes before it.
fn is_allowed(tree: &Tree, before: &[u8], mark: u8) -> bool {
    let node = before.len() + 1;
    match mark {
        0 => node != 1,
        1 => true,
        2 => tree.before[node].is_some_and(|sibling| before[sibling - 1] != 0),
        _ => false,
    }
}

/// The weights of the pages of a plan with allowed marks, in the order of their first nodes.
pub fn page_weights(tree: &Tree, marks: &[u8]) -> Vec<u32> {
    sums_of_pages(tree, marks, |node| tree.weights[node])
}

/// How many nodes are on each of these pages.
pub fn page_sizes(tree: &Tree, marks: &[u8]) -> Vec<u32> {
    sums_of_pages(tree, marks, |_| 1)
}

fn sums_of_pages(tree: &Tree, marks: &[u8], of_node: impl Fn(usize) -> u32) -> Vec<u32> {
    // What each node has is carried to the first node of its page.
    let mut sums = vec![0; tree.node_count() + 1];
    for node in tree.nodes() {
        sums[first_of_page(tree, marks, node)] += of_node(node);
    }
    // A page is there by its first node, whatever it weighs.
    tree.nodes()
        .filter(|&node| marks[node - 1] == 1)
        .map(|node| sums[node])
        .collect()
}

/// The score of a plan; none if a mark is not allowed or a page is over the limit.
pub fn score_of_plan(tree: &Tree, marks: &[u8]) -> Option<Score> {
    let mut nodes = tree.nodes();
    if !nodes.all(|node| is_allowed(tree, &marks[..node - 1], marks[node - 1])) {
        return None;
    }
    let weights = page_weights(tree, marks);
    let feasible = weights.iter().all(|&weight| weight <= tree.limit);
    feasible.then_some((weights.len(), weights[0]))
}

/// The first node of the page that a node is on, in a plan with allowed marks.
pub fn first_of_page(tree: &Tree, marks: &[u8], node: usize) -> usize {
    match marks[node - 1] {
        0 => first_of_page(tree, marks, tree.parents[node]),
        2 => first_of_page(
            tree,
            marks,
            tree.before[node].expect("a sibling before a 2"),
        ),
        _ => node,
    }
}

/// The best score of all plans; none if no plan is feasible.
pub fn best_of_plans(tree: &Tree) -> Option<Score> {
    best_of_plans_where(tree, |_| true)
}

/// The best score of the plans that the test lets through; none if none of these is feasible.
pub fn best_of_plans_where(tree: &Tree, test: impl Fn(&[u8]) -> bool) -> Option<Score> {
    let mut best = None;
    for_each_plan(tree, |marks| {
        if test(marks) {
            keep_smaller(&mut best, score_of_plan(tree, marks));
        }
    });
    best
}

fn keep_smaller(best: &mut Option<Score>, score: Option<Score>) {
    if score.is_some() && (best.is_none() || score < *best) {
        *best = score;
    }
}

/// All runs that can be told of the tree: a first node, and the same node or a later sibling.
fn all_runs(tree: &Tree) -> Vec<Run> {
    let mut runs = vec![];
    for first in tree.nodes() {
        let mut last = Some(first);
        while let Some(node) = last {
            runs.push((first, node));
            last = tree.after[node];
        }
    }
    runs
}

pub fn nodes_of_run(tree: &Tree, run: Run) -> Vec<usize> {
    let mut nodes = vec![run.0];
    while nodes[nodes.len() - 1] != run.1 {
        nodes.push(tree.after[nodes[nodes.len() - 1]].expect("the last is a later sibling"));
    }
    nodes
}

/// Calls `visit` with each set of runs that holds the tree: node 1 by itself is one of the runs,
/// and no node is in two. The order of a sequence changes nothing, so each set comes once.
pub fn for_each_run_set(tree: &Tree, mut visit: impl FnMut(&[Run])) {
    let mut used = vec![false; tree.node_count() + 1];
    add_run(tree, &all_runs(tree), &mut used, &mut vec![], &mut visit);
}

fn add_run(
    tree: &Tree,
    left: &[Run],
    used: &mut [bool],
    chosen: &mut Vec<Run>,
    visit: &mut impl FnMut(&[Run]),
) {
    let Some((&run, left)) = left.split_first() else {
        if chosen.contains(&(1, 1)) {
            visit(chosen);
        }
        return;
    };
    add_run(tree, left, used, chosen, visit);
    let nodes = nodes_of_run(tree, run);
    if nodes.iter().all(|&node| !used[node]) {
        nodes.iter().for_each(|&node| used[node] = true);
        chosen.push(run);
        add_run(tree, left, used, chosen, visit);
        chosen.pop();
        nodes.iter().for_each(|&node| used[node] = false);
    }
}

/// The score of a set of runs that holds the tree; none if a page is over the limit.
pub fn score_of_runs(tree: &Tree, runs: &[Run]) -> Option<Score> {
    let page_of = pages_of_nodes(tree, runs);
    score_of_pages(runs.len(), &page_of, &tree.weights[1..], tree.limit)
}

/// The page of each node, from node 1 on, by the place of its run.
fn pages_of_nodes(tree: &Tree, runs: &[Run]) -> Vec<usize> {
    let mut page_of = vec![None; tree.node_count() + 1];
    for (page, &run) in runs.iter().enumerate() {
        for node in nodes_of_run(tree, run) {
            page_of[node] = Some(page);
        }
    }
    for node in tree.nodes() {
        // A parent has a lower number, so its page is settled.
        page_of[node] = page_of[node].or(page_of[tree.parents[node]]);
    }
    let settled = page_of.into_iter().skip(1);
    settled
        .map(|page| page.expect("node 1 is in a run"))
        .collect()
}

/// The score of so many pages; pages and weights are those of the nodes, from node 1 on.
fn score_of_pages(pages: usize, page_of: &[usize], weights: &[u32], limit: u32) -> Option<Score> {
    let mut sums = vec![0; pages];
    for (&page, &weight) in page_of.iter().zip(weights) {
        sums[page] += weight;
    }
    let feasible = sums.iter().all(|&sum| sum <= limit);
    feasible.then_some((pages, sums[page_of[0]]))
}

/// The best score of all sets of runs; none if no set holds the tree within the limit.
pub fn best_of_run_sets(tree: &Tree) -> Option<Score> {
    let mut best = None;
    for_each_run_set(tree, |runs| {
        keep_smaller(&mut best, score_of_runs(tree, runs))
    });
    best
}

/// All sets of runs that hold the trees of one shape. Those that differ only in weights and limit
/// are searched without listing the sets anew.
pub struct RunSets {
    /// For each set, the number of its pages and the page of each node.
    sets: Vec<(usize, Vec<usize>)>,
}

impl RunSets {
    pub fn of(tree: &Tree) -> RunSets {
        let mut sets = vec![];
        for_each_run_set(tree, |runs| {
            sets.push((runs.len(), pages_of_nodes(tree, runs)))
        });
        RunSets { sets }
    }

    /// The best score of all sets with these weights, from node 1 on, and this limit; none if no
    /// set holds the tree within it.
    pub fn best(&self, weights: &[u32], limit: u32) -> Option<Score> {
        let mut best = None;
        for (pages, page_of) in &self.sets {
            keep_smaller(&mut best, score_of_pages(*pages, page_of, weights, limit));
        }
        best
    }
}

/// Calls `visit` with every table of so many nodes whose weights and limit are among these, and
/// with the best score of all sets of runs; none where no set holds the tree within the limit.
pub fn for_each_table_and_best(
    counts: std::ops::RangeInclusive<usize>,
    weights: &[u16],
    limits: &[u16],
    mut visit: impl FnMut(&[u8], Option<Score>),
) {
    for count in counts {
        for parents in all_parents(count) {
            let shape = Table::new(1, &parents, &vec![0; count]).bytes();
            let sets = RunSets::of(&read(&shape).expect("an accepted table"));
            for weights in all_weights(count, weights) {
                let weighed: Vec<u32> = weights.iter().map(|&weight| weight.into()).collect();
                for &limit in limits {
                    let table = Table::new(limit, &parents, &weights).bytes();
                    visit(&table, sets.best(&weighed, limit.into()));
                }
            }
        }
    }
}

/// The number of nodes in the longest run of a plan with allowed marks.
pub fn longest_run(tree: &Tree, marks: &[u8]) -> usize {
    let runs = runs_of_plan(tree, marks).into_iter();
    let lengths = runs.map(|run| nodes_of_run(tree, run).len());
    lengths.max().expect("node 1 is in a run")
}

/// The runs of a plan with allowed marks, in rising order.
pub fn runs_of_plan(tree: &Tree, marks: &[u8]) -> Vec<Run> {
    let mut runs = vec![];
    for first in tree.nodes().filter(|&node| marks[node - 1] == 1) {
        let mut last = first;
        while let Some(next) = tree.after[last].filter(|&next| marks[next - 1] == 2) {
            last = next;
        }
        runs.push((first, last));
    }
    runs
}
