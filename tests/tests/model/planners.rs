//! The planners against exhaustive search and, on larger trees, against each other.

use super::plan;
use balduqen_tests::cases::*;
use balduqen_tests::exhaustive::*;
use balduqen_tests::gen::*;
use balduqen_tests::model::{read, read_tree, Tree};

/// A planner's score, with its answer checked against the pages weighed anew.
pub fn score(kind: Kind, table: &[u8]) -> Score {
    let tree = read(table).expect("an accepted table");
    let (answer, marks) = plan(kind, table);
    let score = score_of_plan(&tree, &marks).expect("a feasible plan");
    assert_eq!((answer.number, answer.place), (0, 0));
    assert_eq!(
        (answer.pages as usize, answer.root),
        score,
        "{kind:?} {tree:?}"
    );
    score
}

fn best_is_best(table: &[u8]) {
    let tree = read(table).expect("an accepted table");
    assert_eq!(
        Some(score(Kind::Best, table)),
        best_of_plans(&tree),
        "{tree:?}"
    );
}

#[test]
fn best_of_all_small_trees() {
    for_each_table(1..=6, &[1, 2], &[2, 3, 4, 5, 6], best_is_best);
    for_each_table(1..=5, &[1, 2, 3, 4], &[4, 5, 6, 7], best_is_best);
}

/// All weights from 0 to 3 with the limits 1 to 3: against all sets of runs. Where a weight is over
/// the limit there is none, and the tree is refused.
#[test]
fn best_of_all_small_trees_with_notes() {
    let (mut refused, mut beyond) = (0, 0);
    for_each_table_and_best(1..=6, &[0, 1, 2, 3], &[1, 2, 3], |table, best| {
        let Some(best) = best else {
            assert_eq!(read_tree(table).number, 7);
            refused += 1;
            return;
        };
        assert_eq!(score(Kind::Best, table), best, "{table:?}");
        let tree = read(table).expect("an accepted table");
        // A root page of weight 0 could take another page in.
        let weight: u32 = tree.weights.iter().sum();
        assert_eq!(best.1 == 0, weight == 0, "{table:?}");
        let longest = longest_run(&tree, &plan(Kind::Best, table).1);
        beyond += usize::from(longest > tree.limit as usize);
    });
    assert!(refused > 300_000, "{refused}");
    // Plans of best that have a run of more nodes than the limit.
    assert!(beyond > 500, "{beyond}");
}

/// What runs of at most as many nodes as the limit would cost, by exhaustive search: a page.
#[test]
fn a_cap_of_nodes_costs_a_page() {
    for (table, pages, root, length) in [
        (note_between(), 2, 2, 3),
        (notes_between(), 2, 2, 6),
        (small_e_with_note(), 3, 2, 3),
        (notes_at_the_ends(), 2, 3, 4),
        (case_e_with_notes(), 3, 5, 7),
    ] {
        let bytes = table.bytes();
        let tree = read(&bytes).expect("an accepted table");
        assert_eq!(score(Kind::Best, &bytes), (pages, root));
        assert_eq!(best_of_plans(&tree), Some((pages, root)));
        assert_eq!(longest_run(&tree, &plan(Kind::Best, &bytes).1), length);
        // Only plans with a run of that length have so few pages.
        let capped = |cap| best_of_plans_where(&tree, |marks| longest_run(&tree, marks) <= cap);
        assert_eq!(capped(length), Some((pages, root)));
        assert_eq!(capped(length - 1), Some((pages + 1, root)));
        let limit = tree.limit as usize;
        assert!(limit < length);
        assert_eq!(capped(limit).map(|score| score.0), Some(pages + 1));
    }
}

/// With limit 1, best needs no run of more than one node: what weighs nothing can stay.
#[test]
fn runs_under_limit_1() {
    for_each_table(1..=7, &[0, 1], &[1], |table| {
        let tree = read(table).expect("an accepted table");
        assert_eq!(longest_run(&tree, &plan(Kind::Best, table).1), 1);
    });
}

/// Small trees of notes only are one page of weight 0, by whichever planner.
#[test]
fn notes_only() {
    for_each_table(1..=7, &[0], &[1, 2, 1024], |table| {
        for kind in KINDS {
            assert_eq!(score(kind, table), (1, 0), "{kind:?} {table:?}");
        }
    });
}

/// Notes among the nodes of a tree cost nothing, also where the tree is too large for a search.
#[test]
fn notes_cost_nothing() {
    let random = &mut Random::new(408);
    let mut beyond = 0;
    for _ in 0..3000 {
        let table = any_table(random, 40, 12).bytes();
        let tree = read(&table).expect("an accepted table");
        let noted = noted(random, &tree).bytes();
        assert_eq!(score(Kind::Best, &noted), score(Kind::Best, &table));
        let marks = plan(Kind::Best, &noted).1;
        let noted = read(&noted).expect("an accepted table");
        beyond += usize::from(longest_run(&noted, &marks) > noted.limit as usize);
    }
    assert!(beyond > 500, "{beyond}");
}

/// Small trees, whose best score a search tells, with notes up to the most nodes there may be.
#[test]
fn notes_up_to_the_most_nodes() {
    let random = &mut Random::new(409);
    for _ in 0..20 {
        let table = any_table(random, 8, 8).bytes();
        let tree = read(&table).expect("an accepted table");
        let noted = noted_up_to(random, &tree, 2048).bytes();
        assert_eq!(Some(score(Kind::Best, &noted)), best_of_plans(&tree));
    }
}

#[test]
fn best_of_random_small_trees() {
    let random = &mut Random::new(401);
    for _ in 0..40000 {
        let most = random.pick(&[4, 6, 10, 20]);
        best_is_best(&any_table(random, 8, most).bytes());
    }
}

/// Without second plans the pages are sometimes more, so these trees tell the two planners apart.
#[test]
fn best_against_level() {
    let random = &mut Random::new(402);
    let mut better = 0;
    for _ in 0..5000 {
        let table = any_table(random, 60, 10).bytes();
        let (best, level) = (score(Kind::Best, &table), score(Kind::Level, &table));
        assert!(best <= level);
        better += usize::from(best.0 < level.0);
    }
    assert!(better > 100, "{better}");
}

/// Of the plans without a mark 2, single makes the best.
#[test]
fn single_among_plans_of_single_nodes() {
    let random = &mut Random::new(403);
    for _ in 0..10000 {
        let table = any_table(random, 8, 12).bytes();
        let tree = read(&table).expect("an accepted table");
        let best = best_of_plans_where(&tree, |marks| !marks.contains(&2));
        assert_eq!(Some(score(Kind::Single, &table)), best, "{tree:?}");
    }
}

/// Of the plans where a child stays only if all its earlier siblings do, pair makes the best.
#[test]
fn pair_among_plans_of_the_two_way_tree() {
    let random = &mut Random::new(404);
    for _ in 0..10000 {
        let table = any_table(random, 8, 12).bytes();
        let tree = read(&table).expect("an accepted table");
        let is_two_way = |marks: &[u8]| {
            tree.nodes().all(|node| match tree.before[node] {
                Some(sibling) => marks[node - 1] != 0 || marks[sibling - 1] == 0,
                None => true,
            })
        };
        let best = best_of_plans_where(&tree, is_two_way);
        assert_eq!(Some(score(Kind::Pair, &table)), best, "{tree:?}");
    }
}

/// At each node, level chooses the fewest runs and then the lightest rest for the rests that its
/// children have under their own plans.
#[test]
fn level_at_each_node() {
    let random = &mut Random::new(405);
    for _ in 0..10000 {
        let table = any_table(random, 9, 12).bytes();
        let tree = read(&table).expect("an accepted table");
        let marks = plan(Kind::Level, &table).1;
        let mut rests = tree.weights.clone();
        for node in tree.nodes().rev() {
            let children = &tree.children[node];
            let small = one_level(&tree, node, &rests);
            let mut own = vec![1];
            own.extend(children.iter().map(|&child| marks[child - 1]));
            let chosen = score_of_plan(&small, &own);
            assert_eq!(chosen, best_of_plans(&small), "{tree:?} {marks:?} {node}");
            rests[node] = chosen.expect("a feasible plan").1;
        }
    }
}

/// A node and its children as a tree of its own, the children with their rests as weights.
fn one_level(tree: &Tree, node: usize, rests: &[u32]) -> Tree {
    let weights: Vec<u16> = std::iter::once(tree.weights[node])
        .chain(tree.children[node].iter().map(|&child| rests[child]))
        .map(|weight| weight as u16)
        .collect();
    let mut parents = vec![1; weights.len()];
    parents[0] = 0;
    let table = Table::new(tree.limit as u16, &parents, &weights);
    read(&table.bytes()).expect("an accepted table")
}

/// All planners' plans are feasible, and none is better than best.
#[test]
fn plans_of_large_trees() {
    let random = &mut Random::new(406);
    for round in 0..30 {
        let limit = random.pick(&[1, 5, 30, 200, 1024]);
        let count = random.pick(&[50, 200, 1024, 2048]);
        let table = random_table(random, FORMS[round % 5], count, limit).bytes();
        let best = score(Kind::Best, &table);
        for kind in KINDS {
            assert!(best <= score(kind, &table), "{kind:?}");
        }
    }
}
