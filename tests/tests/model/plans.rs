//! The judge, and the sets of sibling runs.

use balduqen_tests::check::Seen;
use balduqen_tests::exhaustive::*;
use balduqen_tests::gen::*;
use balduqen_tests::model::{judge, read, Answer, Tree};
use std::collections::{BTreeMap, BTreeSet};

/// The judge's answer as the exhaustive search tells it. `prefixes` are all the first parts of
/// allowed plans: marks are allowed up to where they leave these.
fn told(tree: &Tree, prefixes: &BTreeSet<Vec<u8>>, marks: &[u8]) -> Answer {
    let bad = (1..=marks.len()).find(|&length| !prefixes.contains(&marks[..length]));
    if let Some(node) = bad {
        return Answer::refused(10, node);
    }
    let weights = page_weights(tree, marks);
    match weights.iter().position(|&weight| weight > tree.limit) {
        Some(index) => Answer::refused(11, index + 1),
        None => Answer::accepted(weights.len(), weights[0]),
    }
}

#[test]
fn judge_of_all_marks() {
    let mut seen = Seen::default();
    let mut judge_all = |table: &[u8]| {
        let tree = read(table).expect("an accepted table");
        let mut prefixes = BTreeSet::new();
        for_each_plan(&tree, |marks| {
            prefixes.extend((1..=marks.len()).map(|length| marks[..length].to_vec()));
        });
        for_each_marks(tree.node_count(), |marks| {
            let answer = judge(table, marks);
            assert_eq!(answer, told(&tree, &prefixes, marks), "{tree:?} {marks:?}");
            let score = (answer.pages as usize, answer.root);
            let score = answer.is_accepted().then_some(score);
            assert_eq!(score_of_plan(&tree, marks), score, "{tree:?} {marks:?}");
            seen.add(answer);
        });
    };
    for_each_table(1..=5, &[1, 3], &[3, 5], &mut judge_all);
    for_each_table(1..=4, &[0, 1, 3], &[3, 5], &mut judge_all);
    for_each_table(5..=5, &[0, 2], &[2, 4], &mut judge_all);
    seen.expect(&[0, 10, 11], 1000);
}

#[test]
fn judge_of_marks_of_another_length() {
    let random = &mut Random::new(301);
    for _ in 0..2000 {
        let table = any_table(random, 30, 30);
        let count = table.records.len();
        let length = random.pick(&[0, count - 1, count + 1, 2 * count]);
        let marks = random.bytes(length);
        assert_eq!(judge(&table.bytes(), &marks), Answer::refused(8, count));
    }
}

/// Each set of runs that holds the tree is the runs of one plan with the same score, and each plan's
/// runs are one.
fn run_sets_are_plans_of(tree: &Tree) {
    let mut sets = BTreeMap::new();
    for_each_run_set(tree, |runs| {
        let mut sorted = runs.to_vec();
        sorted.sort();
        assert_eq!(sets.insert(sorted, score_of_runs(tree, runs)), None);
    });
    let mut plans = BTreeMap::new();
    for_each_plan(tree, |marks| {
        let runs = runs_of_plan(tree, marks);
        assert_eq!(plans.insert(runs, score_of_plan(tree, marks)), None);
    });
    assert_eq!(sets, plans);
}

/// Of every shape with up to six nodes: with weights that rise from 1, with pages that weigh
/// nothing, and with nodes that outweigh the limit.
#[test]
fn run_sets_are_the_plans() {
    for count in 1..=6 {
        for parents in all_parents(count) {
            let table = Table::new(12, &parents, &vec![1; count]).bytes();
            let mut tree = read(&table).expect("an accepted table");
            for (first, step) in [(1, 1), (0, 0), (0, 1), (10, 1)] {
                for node in tree.nodes() {
                    tree.weights[node] = first + step * (node as u32 - 1);
                }
                run_sets_are_plans_of(&tree);
            }
        }
    }
}

/// Also where a page weighs nothing, and where a node outweighs the limit and there is no best. So
/// it is, too, where the sets are listed for the shape alone and weighed later.
#[test]
fn best_of_run_sets_is_best_of_plans() {
    let random = &mut Random::new(302);
    let mut unheld = 0;
    for _ in 0..4000 {
        let table = any_table(random, 7, 12);
        let mut tree = read(&table.bytes()).expect("an accepted table");
        let sets = RunSets::of(&tree);
        let node = random.between(1, tree.node_count());
        tree.weights[node] = random.pick(&[tree.weights[node], 0, tree.limit + 1]);
        let best = best_of_run_sets(&tree);
        assert_eq!(best, best_of_plans(&tree), "{tree:?}");
        assert_eq!(best, sets.best(&tree.weights[1..], tree.limit), "{tree:?}");
        unheld += usize::from(best.is_none());
    }
    assert!((1000..2000).contains(&unheld), "{unheld}");
}
