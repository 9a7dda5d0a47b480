//! Prices and savings: against the price list written out once more and pages weighed anew, and the
//! price of the best plan beside that of all others.

use super::plan;
use balduqen_tests::cases::*;
use balduqen_tests::exhaustive::for_each_plan;
use balduqen_tests::gen::*;
use balduqen_tests::model::{judge, plan_best, price, read, saving, scratch_length, Price, Saving};
use balduqen_tests::price_list::{cents_of_plan, cheapest_by_pages, price_of_plan};
use std::collections::BTreeMap;

/// Number and place are the judge's; page count and root weight are those of the pages weighed anew
/// and the total that of the price list, or all 0 with a refusal.
fn price_by_the_list(table: &[u8], marks: &[u8]) -> u32 {
    let (price, judged) = (price(table, marks), judge(table, marks));
    let expected = match judged.is_accepted() {
        true => price_of_plan(&read(table).expect("an accepted table"), marks),
        false => Price::refused(judged.number, judged.place as usize),
    };
    assert_eq!(price, expected, "{table:?} {marks:?}");
    price.cents
}

/// The saving with good buffers is the difference of the two plans by the price list, with the best
/// plan's page count and root weight, and leaves what the best planner leaves.
fn saving_by_the_list(table: &[u8]) -> i32 {
    let tree = read(table).expect("an accepted table");
    let [best, single] = [Kind::Best, Kind::Single].map(|kind| plan(kind, table).1);
    let mut marks = vec![9; tree.node_count()];
    let mut scratch = vec![9; scratch_length(marks.len(), tree.limit as usize) + 2];
    let answer = saving(table, &mut marks, &mut scratch);
    let [of_best, of_single] = [&best, &single].map(|marks| price_of_plan(&tree, marks));
    let saved = of_single.cents as i32 - of_best.cents as i32;
    let expected = Saving::accepted(of_best.pages as usize, of_best.root, saved);
    assert_eq!(answer, expected, "{tree:?}");
    assert_eq!(marks, best, "{tree:?}");
    assert!(scratch.iter().all(|&word| word == 0), "{tree:?}");
    answer.saving
}

/// With weights from 0, and with pages of many fills, up to full ones.
#[test]
fn prices_of_all_plans() {
    let mut accepted = 0;
    let mut price_all = |table: &[u8]| {
        for_each_plan(&read(table).expect("an accepted table"), |marks| {
            accepted += usize::from(price_by_the_list(table, marks) > 0);
        });
    };
    for_each_table(1..=4, &[0, 1, 3, 7], &[7, 15, 16], &mut price_all);
    for_each_table(5..=5, &[0, 1, 2], &[2, 3, 10], &mut price_all);
    for_each_table(6..=6, &[0, 2], &[2, 4], &mut price_all);
    assert!(accepted > 100_000, "{accepted}");
}

#[test]
fn prices_of_random_plans() {
    let random = &mut Random::new(651);
    for round in 0..2000 {
        let most = if round % 20 == 0 { 2048 } else { 100 };
        let limit = random.pick(&[3, 15, 64, 1024]);
        let table = any_table(random, most, limit).bytes();
        let tree = read(&table).expect("an accepted table");
        price_by_the_list(&table, &any_plan(random, &tree));
    }
}

/// Below, at and above zero.
#[test]
fn savings_of_small_trees() {
    let mut signs = BTreeMap::new();
    let mut save = |table: &[u8]| {
        let sign = saving_by_the_list(table).signum();
        *signs.entry(sign).or_insert(0) += 1;
    };
    for_each_table(1..=5, &[0, 1, 2, 3], &[3, 4, 5], &mut save);
    for_each_table(6..=6, &[1, 2, 5], &[5, 6], &mut save);
    assert!(
        signs.len() == 3 && signs.values().all(|&trees| trees > 1000),
        "{signs:?}"
    );
}

#[test]
fn savings_of_random_trees() {
    let random = &mut Random::new(652);
    for round in 0..2000 {
        let most = if round % 100 == 0 { 2048 } else { 60 };
        let limit = random.pick(&[6, 15, 60]);
        saving_by_the_list(&any_table(random, most, limit).bytes());
    }
}

/// As a planner refuses, and nothing is written.
#[test]
fn refusals_of_savings() {
    let random = &mut Random::new(653);
    let mut refused = 0;
    for _ in 0..20000 {
        let table = any_table(random, 12, 12);
        let table = match random.once_in(2) {
            true => damaged(random, &table),
            false => table.bytes(),
        };
        let lengths = (random.pick(&[12, 11, 5, 0]), random.pick(&[0, 100, 720]));
        let (mut marks, mut scratch) = (vec![7; lengths.0], vec![7; lengths.1]);
        let answer = saving(&table, &mut marks, &mut scratch);
        let best = plan_best(&table, &mut vec![7; lengths.0], &mut vec![7; lengths.1]);
        assert_eq!(answer.answer(), best);
        if answer.number != 0 {
            let refusal = Saving::refused(best.number, best.place as usize);
            assert_eq!(answer, refusal);
            assert!(marks.iter().all(|&mark| mark == 7));
            assert!(scratch.iter().all(|&word| word == 7));
            refused += 1;
        }
    }
    assert!((10_000..20_000).contains(&refused), "{refused}");
}

/// Trees of up to three nodes under limits up to 3, for which another plan costs less than best's:
/// `dear_best`, and a chain of its weights.
#[test]
fn smallest_trees_whose_best_plan_is_not_cheapest() {
    let mut dear = vec![];
    for limit in 1..=3 {
        let weights: Vec<u16> = (0..=limit).collect();
        for_each_table(1..=3, &weights, &[limit], |table| {
            let tree = read(table).expect("an accepted table");
            let best = cents_of_plan(&tree, &plan(Kind::Best, table).1);
            if cheapest_by_pages(&tree)
                .into_values()
                .any(|cents| cents < best)
            {
                dear.push(table.to_vec());
            }
        });
    }
    let chain = Table::new(3, &[0, 1, 2], &[2, 1, 1]);
    assert_eq!(dear, [chain.bytes(), dear_best().bytes()]);
}
