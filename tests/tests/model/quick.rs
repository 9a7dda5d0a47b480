//! The rightmost and the depth-first planner: against exhaustive search, by what only their plans
//! have, and beside best.

use super::plan;
use super::planners::score;
use balduqen_tests::cases::{Kind, QUICK};
use balduqen_tests::check::show;
use balduqen_tests::exhaustive::*;
use balduqen_tests::gen::*;
use balduqen_tests::model::{read, Tree};

/// The plans are feasible, not below the least of all plans, and of one page where that holds all.
fn not_below_the_least(table: &[u8]) {
    let tree = read(table).expect("an accepted table");
    let least = best_of_plans(&tree).expect("a feasible plan");
    let weight: u32 = tree.weights.iter().sum();
    for kind in QUICK {
        let score = score(kind, table);
        assert!(least <= score, "{kind:?} {tree:?}");
        assert_eq!(score.0 == 1, weight <= tree.limit, "{kind:?} {tree:?}");
    }
}

#[test]
fn least_of_all_small_trees() {
    for_each_table(1..=6, &[1, 2], &[2, 3, 4, 5, 6], not_below_the_least);
    for_each_table(1..=5, &[1, 2, 3, 4], &[4, 5, 6, 7], not_below_the_least);
    for_each_table(1..=6, &[0, 1], &[1, 2, 3], not_below_the_least);
    for_each_table(1..=5, &[0, 1, 2, 3], &[3, 4], not_below_the_least);
}

#[test]
fn least_of_random_small_trees() {
    let random = &mut Random::new(411);
    for _ in 0..20000 {
        let most = random.pick(&[4, 6, 10, 20]);
        not_below_the_least(&any_table(random, 8, most).bytes());
    }
}

/// Whether a feasible plan is rightmost's: at each node the children that are cut are the last ones,
/// no run has room for the child to its left, and with the leftmost run the node would be too heavy.
fn is_rightmost(tree: &Tree, marks: &[u8]) -> bool {
    let mut rests = tree.weights.clone();
    tree.nodes().rev().all(|node| {
        let is_cut = |child: &usize| marks[child - 1] != 0;
        let children = &tree.children[node];
        let staying = children.iter().position(is_cut).unwrap_or(children.len());
        let (stay, cut) = children.split_at(staying);
        rests[node] += stay.iter().map(|&child| rests[child]).sum::<u32>();
        // First node and sum of each run, from the left.
        let mut runs: Vec<(usize, u32)> = vec![];
        for &child in cut {
            match (marks[child - 1], runs.last_mut()) {
                (2, Some((_, sum))) => *sum += rests[child],
                _ => runs.push((child, rests[child])),
            }
        }
        let is_full = |&(first, sum): &(usize, u32)| match tree.before[first] {
            Some(left) => sum + rests[left] > tree.limit,
            None => true,
        };
        let leftmost = runs.first();
        let is_needed = leftmost.is_none_or(|(_, sum)| rests[node] + sum > tree.limit);
        cut.iter().all(is_cut) && runs.iter().all(is_full) && is_needed
    })
}

/// Whether a feasible plan is depth-first's: each page is of nodes that follow each other, a node
/// begins a page only where the page before has no room or neither parent nor sibling of it, and it
/// continues a run only where its parent is on another page.
fn is_depth_first(tree: &Tree, marks: &[u8]) -> bool {
    let mut firsts = vec![0];
    firsts.extend(tree.nodes().map(|node| first_of_page(tree, marks, node)));
    tree.nodes().skip(1).all(|node| {
        let last = firsts[node - 1];
        let weight: u32 = tree.weights[last..=node].iter().sum();
        let has_parent = firsts[tree.parents[node]] == last;
        let has_sibling = tree.before[node].is_some_and(|sibling| firsts[sibling] == last);
        match marks[node - 1] {
            0 => firsts[node] == last,
            1 => weight > tree.limit || !has_parent && !has_sibling,
            _ => firsts[node] == last && !has_parent,
        }
    })
}

fn has_properties(kind: Kind, tree: &Tree, marks: &[u8]) -> bool {
    match kind {
        Kind::Rightmost => is_rightmost(tree, marks),
        _ => is_depth_first(tree, marks),
    }
}

/// Of all feasible plans, the planner's has its properties, and no other.
fn alone_of_all_plans(kind: Kind, table: &[u8]) {
    let tree = read(table).expect("an accepted table");
    let mut found = vec![];
    for_each_plan(&tree, |marks| {
        if score_of_plan(&tree, marks).is_some() && has_properties(kind, &tree, marks) {
            found.push(marks.to_vec());
        }
    });
    assert_eq!(found, [plan(kind, table).1], "{kind:?} {tree:?}");
}

fn alone_in_small_trees(kind: Kind) {
    let check = |table: &[u8]| alone_of_all_plans(kind, table);
    for_each_table(1..=6, &[1, 2], &[2, 3, 4, 5, 6], check);
    for_each_table(1..=5, &[1, 2, 3, 4], &[4, 5, 6, 7], check);
    for_each_table(1..=6, &[0, 1], &[1, 2, 3], check);
    for_each_table(1..=5, &[0, 1, 2, 3], &[3, 4], check);
    let random = &mut Random::new(412);
    for _ in 0..10000 {
        let most = random.pick(&[4, 6, 10, 20]);
        check(&any_table(random, 8, most).bytes());
    }
}

#[test]
fn rightmost_alone_of_all_plans() {
    alone_in_small_trees(Kind::Rightmost);
}

#[test]
fn depth_first_alone_of_all_plans() {
    alone_in_small_trees(Kind::DepthFirst);
}

#[test]
fn properties_in_large_trees() {
    let random = &mut Random::new(413);
    for round in 0..200 {
        let limit = random.pick(&[1, 5, 30, 200, 1024]);
        let count = random.pick(&[50, 200, 1024, 2048]);
        let table = random_table(random, FORMS[round % 5], count, limit).bytes();
        let tree = read(&table).expect("an accepted table");
        for kind in QUICK {
            let marks = plan(kind, &table).1;
            assert!(score_of_plan(&tree, &marks).is_some(), "{kind:?} {tree:?}");
            assert!(has_properties(kind, &tree, &marks), "{kind:?} {tree:?}");
        }
    }
}

/// Nodes of weight 1, all in one chain or all below node 1: each page but one is full. It is the
/// root's page that rightmost leaves the odd nodes, and depth-first the last one.
#[test]
fn chains_and_flat_trees() {
    for count in (1..40).chain([1023, 1024, 1025, 2047, 2048]) {
        let chain: Parents = (0..count).collect();
        let flat: Parents = (0..count).map(|node| node.min(1)).collect();
        for limit in [1, 2, 3, 5, 16, 39, 1023, 1024] {
            let pages = count.div_ceil(limit);
            let odd = (count - 1) % limit + 1;
            for parents in [&chain, &flat] {
                let table = Table::new(limit as u16, parents, &vec![1; count]).bytes();
                let rightmost = score(Kind::Rightmost, &table);
                assert_eq!(rightmost, (pages, odd as u32), "{count} {limit}");
                let depth_first = score(Kind::DepthFirst, &table);
                let root = count.min(limit) as u32;
                assert_eq!(depth_first, (pages, root), "{count} {limit}");
            }
        }
    }
}

/// Neither is ever below best; both need more pages in some trees, and as many in others.
#[test]
fn pages_beside_best() {
    let random = &mut Random::new(414);
    let (mut more, mut as_many) = ([0; QUICK.len()], [0; QUICK.len()]);
    for _ in 0..5000 {
        let table = any_table(random, 60, 10).bytes();
        let best = score(Kind::Best, &table);
        for (place, kind) in QUICK.into_iter().enumerate() {
            let score = score(kind, &table);
            assert!(best <= score, "{kind:?}: {}", show(&table));
            more[place] += usize::from(best.0 < score.0);
            as_many[place] += usize::from(best.0 == score.0);
        }
    }
    assert!(more.iter().all(|&trees| trees > 500), "{more:?}");
    assert!(as_many.iter().all(|&trees| trees > 500), "{as_many:?}");
}
