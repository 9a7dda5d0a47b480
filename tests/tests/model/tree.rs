//! The tree reader.

use balduqen_tests::cases::{case_e, faulty_tables, once_refused_tables};
use balduqen_tests::check::{file_all, first_unfiled, Seen};
use balduqen_tests::gen::*;
use balduqen_tests::model::{read, read_as_before, read_tree, Answer};

/// The walk accepts each shape once and nothing else.
#[test]
fn accepted_links_are_the_shapes() {
    for (count, shapes) in [(1, 1), (2, 1), (3, 2), (4, 5)] {
        let mut accepted = vec![];
        for_each_linking(count, |table| {
            if read_tree(&table.bytes()) == Answer::ACCEPTED {
                accepted.push(table.clone());
            }
        });
        let mut told: Vec<Table> = all_parents(count)
            .iter()
            .map(|parents| Table::new(9, parents, &vec![1; count]))
            .collect();
        assert_eq!(told.len(), shapes);
        let key = |table: &Table| table.bytes();
        accepted.sort_by_key(key);
        told.sort_by_key(key);
        assert_eq!(accepted, told);
    }
}

#[test]
fn tree_of_a_table() {
    let random = &mut Random::new(201);
    for _ in 0..2000 {
        let form = random.pick(&FORMS);
        let count = random.between(1, 40);
        let parents = random_parents(random, form, count);
        let weights: Vec<u16> = (0..count).map(|_| random.between(0, 9) as u16).collect();
        let table = Table::new(9, &parents, &weights).with_random_labels(random);
        let tree = read(&table.bytes()).expect("an accepted table");
        assert_eq!((tree.limit, tree.node_count()), (9, count));
        assert_eq!(tree.parents[1..], parents);
        for (index, record) in table.records.iter().enumerate() {
            let node = index + 1;
            assert_eq!(tree.weights[node], u32::from(record.weight));
            assert_eq!(tree.labels[node], u32::from(record.label));
            let children: Vec<usize> = (1..=count)
                .filter(|&child| parents[child - 1] == node)
                .collect();
            assert_eq!(tree.children[node], children);
            for two in children.windows(2) {
                assert_eq!(
                    (tree.after[two[0]], tree.before[two[1]]),
                    (Some(two[1]), Some(two[0]))
                );
            }
        }
    }
}

#[test]
fn order_of_the_checks() {
    for (table, number, place) in faulty_tables().into_iter().chain(once_refused_tables()) {
        assert_eq!(read_tree(&table), Answer::refused(number, place));
    }
}

/// Each weight, at any node: 0 is as good as another, and those over the limit are refused.
#[test]
fn every_weight() {
    for node in 1..=6 {
        let mut table = case_e();
        for weight in 0..=u16::MAX {
            table.records[node - 1].weight = weight;
            let expected = match weight {
                0..=5 => Answer::ACCEPTED,
                _ => Answer::refused(7, node),
            };
            assert_eq!(read_tree(&table.bytes()), expected);
        }
    }
}

/// The places of a failed walk, one change to case E each.
#[test]
fn places_of_a_failed_walk() {
    // Node, whether its sibling link is changed (else its child link), new value, place.
    let changes = [
        (1, true, 2, 0),
        (1, true, 7, 0),
        (1, true, 65535, 0),
        (1, false, 0, 1),
        (1, false, 1, 1),
        (1, false, 3, 1),
        (1, false, 7, 1),
        (2, false, 1, 2),
        (2, false, 3, 6),
        (2, true, 0, 2),
        (2, true, 2, 2),
        (2, true, 4, 2),
        (3, false, 0, 3),
        (3, false, 5, 3),
        (3, true, 0, 5),
        (3, true, 4, 5),
        (3, true, 7, 5),
        (4, false, 6, 4),
        (4, true, 0, 4),
        (5, false, 4, 5),
        (5, false, 6, 6),
        (5, true, 6, 6),
        (5, true, 5, 5),
        (6, true, 6, 6),
        (6, true, 7, 6),
        (6, false, 7, 6),
        (6, false, 1, 6),
        (6, false, 65535, 6),
    ];
    for (node, is_sibling, value, place) in changes {
        let mut table = case_e();
        let record = &mut table.records[node - 1];
        let link = if is_sibling {
            &mut record.next_sibling
        } else {
            &mut record.first_child
        };
        assert_ne!(*link, value);
        *link = value;
        let refusal = Answer::refused(6, place);
        assert_eq!(
            read_tree(&table.bytes()),
            refusal,
            "node {node}, {is_sibling}, {value}"
        );
    }
}

/// The damage of the generator reaches every refusal of the tree reader.
#[test]
fn damage_reaches_every_refusal() {
    let random = &mut Random::new(202);
    let mut seen = Seen::default();
    for _ in 0..20000 {
        let table = any_table(random, 12, 12);
        assert_eq!(read_tree(&table.bytes()), Answer::ACCEPTED);
        seen.add(read_tree(&damaged(random, &table)));
    }
    seen.expect(&[0, 1, 2, 3, 4, 6, 7, 14], 50);
}

/// The reading without 14 takes a label 0 as it takes any other, and is the same in all else.
#[test]
fn reading_as_before() {
    let random = &mut Random::new(203);
    let mut taken = 0;
    for _ in 0..20000 {
        let table = any_table(random, 12, 12).unfiled(random);
        let table = match random.once_in(2) {
            true => table.bytes(),
            false => damaged(random, &table),
        };
        let mut filed = table.clone();
        file_all(filed.get_mut(4..).unwrap_or_default());
        let mut as_before = read_as_before(&table);
        if let Ok(tree) = &mut as_before {
            let first = tree.nodes().find(|&node| tree.labels[node] == 0);
            assert_eq!(first, first_unfiled(&table));
            taken += usize::from(first.is_some());
            // Index 0 is not a node.
            for label in &mut tree.labels[1..] {
                *label = 1.max(*label);
            }
        }
        assert_eq!(as_before, read(&filed));
    }
    assert!(taken > 10000, "{taken}");
}
