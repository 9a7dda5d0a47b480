//! The planners of the library.

use balduqen::doors;
use balduqen_tests::cases::*;
use balduqen_tests::check::{show, with_copy, Lent, Seen};
use balduqen_tests::gen::*;
use balduqen_tests::model::{scratch_length, word, Answer};

/// The library's answer and marks; both, and the scratch left behind, checked against the model's.
/// The buffers hold these on entry.
fn plan(kind: Kind, table: &[u8], marks: &[u8], scratch: &[u32]) -> (Answer, Vec<u8>) {
    let mut model_marks = marks.to_vec();
    let mut model_scratch = scratch.to_vec();
    let model_answer = kind.model()(table, &mut model_marks, &mut model_scratch);

    let mut lent_marks = Lent::new(marks, 0xa5);
    let mut lent_scratch = Lent::new(scratch, 0xa5a5_a5a5);
    let answer = with_copy(table, |table| {
        kind.library()(table, lent_marks.slice(), lent_scratch.slice())
    });
    assert_eq!(answer, model_answer, "{kind:?}: {}", show(table));
    let marks = lent_marks.content();
    assert_eq!(marks, model_marks, "{kind:?} {answer:?}: {}", show(table));
    let same_scratch = lent_scratch.content() == model_scratch;
    assert!(
        same_scratch,
        "scratch after {kind:?} {answer:?}: {}",
        show(table)
    );
    (answer, marks.to_vec())
}

/// A call with good buffers, if the table is good. What they hold on entry is free.
fn plan_with_good_buffers(kind: Kind, random: &mut Random, table: &[u8]) -> (Answer, Vec<u8>) {
    let (count, limit) = (word(table, 0), word(table, 1));
    let marks = random.bytes(count);
    let filling = random.number() as u32;
    let scratch = vec![filling; scratch_length(count, limit)];
    plan(kind, table, &marks, &scratch)
}

fn cases(kind: Kind) {
    let random = &mut Random::new(801);
    for made in made().into_iter().filter(|made| made.kind == kind) {
        let answer = plan_with_good_buffers(kind, random, &made.table.bytes());
        assert_eq!(
            answer,
            (Answer::accepted(made.pages, made.root), made.marks),
            "{}",
            made.name
        );
    }
    for (table, number, place) in refused_tables() {
        let refusal = Answer::refused(number, place);
        assert_eq!(plan(kind, &table, &[7; 6], &[7; 192]).0, refusal);
        assert_eq!(plan(kind, &table, &[], &[]).0, refusal);
        assert_eq!(kind.library()(&table, &mut [], &mut []), refusal);
    }
    for (table, number, place) in once_refused_tables() {
        let answer = plan_with_good_buffers(kind, random, &table).0;
        assert_eq!((answer.number, answer.place), (number, place as u32));
    }
}

/// Case E with a fault for any selection of the numbers 1 to 4, 6 to 9 and 14.
fn order_of_the_checks(kind: Kind) {
    for (table, number, place) in faulty_tables() {
        for marks in 5..=7 {
            for scratch in [0, 191, 192, 193] {
                let answer = plan(kind, &table, &vec![7; marks], &vec![7; scratch]).0;
                let expected = match (number, marks, scratch) {
                    (0, 6, 0 | 191) => Answer::refused(9, 192),
                    (0, 6, _) => Answer {
                        number: 0,
                        place: 0,
                        ..answer
                    },
                    (0, _, _) => Answer::refused(8, 6),
                    _ => Answer::refused(number, place),
                };
                assert_eq!(answer, expected);
            }
        }
    }
}

fn all_small_trees(kind: Kind) {
    let random = &mut Random::new(802);
    let mut seen = Seen::default();
    let mut plan_one = |table: &[u8]| seen.add(plan_with_good_buffers(kind, random, table).0);
    for_each_table(1..=6, &[0, 1, 2, 3], &[1, 2, 3], &mut plan_one);
    for_each_table(1..=6, &[1, 2, 3, 4], &[4], &mut plan_one);
    // With a weight over every limit below 4 too.
    for_each_table(1..=5, &[1, 4], &[1, 2, 3], &mut plan_one);
    seen.expect(&[0, 7], 1000);
}

/// All labels of 0 and 1, with weights of 0 and over the limit.
fn all_labels_of_small_trees(kind: Kind) {
    let random = &mut Random::new(811);
    let mut seen = Seen::default();
    for_each_table(1..=4, &[0, 1, 2, 3], &[2], |table| {
        for_each_labelling(table, |table| {
            seen.add(plan_with_good_buffers(kind, random, table).0);
        });
    });
    seen.expect(&[0, 7, 14], 100);
}

fn random_trees(kind: Kind) {
    let random = &mut Random::new(803);
    let mut seen = Seen::default();
    for _ in 0..12000 {
        let limit = random.pick(&[6, 12, 30]);
        let table = any_table(random, 40, limit).bytes();
        seen.add(plan_with_good_buffers(kind, random, &table).0);
    }
    seen.expect(&[0], 12000);
}

/// Larger trees of the form that most needs second plans.
fn comb_trees(kind: Kind) {
    let random = &mut Random::new(804);
    for _ in 0..2000 {
        let (count, limit) = (random.between(30, 200), random.between(4, 30));
        let table = random_table(random, Form::Comb, count, limit).bytes();
        assert!(plan_with_good_buffers(kind, random, &table).0.is_accepted());
    }
}

fn largest_trees(kind: Kind) {
    let random = &mut Random::new(805);
    for form in FORMS {
        for (count, limit) in [
            (1024, 9),
            (1024, 1024),
            (1025, 9),
            (1025, 1024),
            (2048, 1),
            (2048, 9),
            (2048, 150),
            (2048, 1024),
        ] {
            let table = random_table(random, form, count, limit).bytes();
            assert!(plan_with_good_buffers(kind, random, &table).0.is_accepted());
        }
    }
    // One page that is full, and one node too many for it.
    for count in [1023, 1024] {
        for form in [Form::Deep, Form::Mixed] {
            let parents = random_parents(random, form, count);
            let table = Table::new(1023, &parents, &vec![1; count]).bytes();
            let answer = plan_with_good_buffers(kind, random, &table).0;
            assert_eq!(answer.pages == 1, count == 1023);
        }
    }
}

/// Notes only: one page of weight 0. With a few other weights among them a run can have hundreds of
/// nodes more than the limit.
fn notes(kind: Kind) {
    let random = &mut Random::new(815);
    for form in FORMS {
        for limit in [1, 5, 60] {
            let parents = random_parents(random, form, 2048);
            let mut weights = [0; 2048];
            let table = Table::new(limit, &parents, &weights).bytes();
            let answer = plan_with_good_buffers(kind, random, &table).0;
            assert_eq!(answer, Answer::accepted(1, 0), "{form:?} {limit}");
            for _ in 0..10 {
                weights[random.between(0, 2047)] = random.between(1, limit.into()) as u16;
            }
            let table = Table::new(limit, &parents, &weights).bytes();
            assert!(plan_with_good_buffers(kind, random, &table).0.is_accepted());
        }
    }
}

/// Trees of 1,024, 1,025 and 2,048 nodes with buffers that are one or two off, empty, or far too long,
/// and one of 2,049 nodes, which is refused with whatever buffers.
fn lengths_of_long_buffers(kind: Kind) {
    let random = &mut Random::new(819);
    let others = |asked: usize| {
        [
            0,
            asked - 2,
            asked - 1,
            asked,
            asked + 1,
            asked + 2,
            3 * asked,
        ]
    };
    for count in [1024, 1025, 2048, 2049] {
        let form = random.pick(&FORMS);
        let table = random_table(random, form, count, 3).bytes();
        let asked = scratch_length(count, 3);
        for marks in others(count) {
            for scratch in others(asked) {
                let answer = plan(kind, &table, &vec![7; marks], &vec![7; scratch]).0;
                let expected = match count {
                    2049 => Answer::refused(2, 2049),
                    _ if marks != count => Answer::refused(8, count),
                    _ if scratch < asked => Answer::refused(9, asked),
                    _ => Answer::accepted(answer.pages as usize, answer.root),
                };
                assert_eq!(answer, expected, "{count}: {marks}, {scratch}");
            }
        }
    }
}

/// The longest scratch, of 8,413,184 words, and one word less.
fn longest_scratch(kind: Kind) {
    let random = &mut Random::new(820);
    let parents = random_parents(random, Form::Mixed, 2048);
    let weights: Vec<u16> = (0..2048)
        .map(|_| random.between(100, 1024) as u16)
        .collect();
    let table = Table::new(1024, &parents, &weights).bytes();
    let (marks, scratch) = (random.bytes(2048), vec![7; 8_413_184]);
    assert!(plan(kind, &table, &marks, &scratch).0.is_accepted());
    let refusal = plan(kind, &table, &marks, &scratch[1..]).0;
    assert_eq!(refusal, Answer::refused(9, 8_413_184));
}

/// Good trees with buffers that are too short, too long or just right.
fn lengths_of_buffers(kind: Kind) {
    let random = &mut Random::new(806);
    let mut seen = Seen::default();
    for _ in 0..10000 {
        let table = any_table(random, 20, 20).bytes();
        let count = word(&table, 0);
        let asked = scratch_length(count, word(&table, 1));
        let marks = random.pick(&[count, count, count, count - 1, count + 1, 0, 3 * count]);
        let scratch = random.pick(&[asked, asked + 1, asked + 9, asked - 1, asked / 4, 0]);
        let marks = random.bytes(marks);
        seen.add(plan(kind, &table, &marks, &vec![0xdead_beef; scratch]).0);
    }
    seen.expect(&[0, 8, 9], 500);
}

fn damaged_tables(kind: Kind) {
    let random = &mut Random::new(807);
    let mut seen = Seen::default();
    for _ in 0..20000 {
        let table = any_table(random, 12, 12);
        let damaged = damaged(random, &table);
        let count = table.records.len() + random.pick(&[0, 0, 0, 1]);
        // Often enough for the table before the damage.
        let scratch = random.pick(&[0, 720, 800]);
        let marks = random.bytes(count);
        seen.add(plan(kind, &damaged, &marks, &vec![0xdead_beef; scratch]).0);
    }
    seen.expect(&[0, 1, 2, 3, 4, 6, 7, 8, 9, 14], 50);
}

macro_rules! planner_tests {
    ($name:ident, $kind:expr, $($test:ident)*) => {
        mod $name {
            use super::*;

            $(
                #[test]
                fn $test() {
                    super::$test($kind);
                }
            )*
        }
    };
    ($name:ident, $kind:expr) => {
        planner_tests!(
            $name, $kind,
            cases order_of_the_checks all_small_trees all_labels_of_small_trees random_trees
            comb_trees largest_trees notes lengths_of_buffers lengths_of_long_buffers
            longest_scratch damaged_tables
        );
    };
}

planner_tests!(single, Kind::Single);
planner_tests!(pair, Kind::Pair);
planner_tests!(level, Kind::Level);
planner_tests!(best, Kind::Best);
planner_tests!(rightmost, Kind::Rightmost);
planner_tests!(depth_first, Kind::DepthFirst);

/// The best planner and the quick ones against exhaustive search. The model reads the tree; its judge
/// and its planners are not asked.
mod search {
    use super::*;
    use balduqen_tests::exhaustive::{
        best_of_plans, best_of_plans_where, best_of_run_sets, for_each_table_and_best, longest_run,
        score_of_plan, Score,
    };
    use balduqen_tests::model::{read, Tree};

    /// The score of a planner's plan, which is weighed anew and has to be the planner's answer.
    fn score(kind: Kind, random: &mut Random, table: &[u8], tree: &Tree) -> Score {
        let count = tree.node_count();
        let mut marks = random.bytes(count);
        let filling = random.number() as u32;
        let mut scratch = vec![filling; scratch_length(count, tree.limit as usize)];
        let answer = kind.library()(table, &mut marks, &mut scratch);
        let made = score_of_plan(tree, &marks);
        let (pages, root) = made.unwrap_or_else(|| panic!("{kind:?} {marks:?}: {}", show(table)));
        let told = Answer::accepted(pages, root);
        assert_eq!(answer, told, "{kind:?} {marks:?}: {}", show(table));
        // The library's judge is of the same mind.
        let judged = doors::judge(table, &marks);
        assert_eq!(judged, told, "{kind:?} {marks:?}: {}", show(table));
        (pages, root)
    }

    /// Checks one tree against its best score.
    fn check(random: &mut Random, table: &[u8], best: fn(&Tree) -> Option<Score>) {
        let tree = read(table).expect("an accepted table");
        let best = best(&tree).expect("an accepted tree is held within its limit");
        let made = score(Kind::Best, random, table, &tree);
        assert_eq!(made, best, "{}", show(table));
    }

    /// Checks that one tree's best score is not undercut, and counts where it is not met.
    fn check_quick(random: &mut Random, table: &[u8], seen: &mut [[usize; 2]; 2]) {
        let tree = read(table).expect("an accepted table");
        let best = best_of_plans(&tree).expect("an accepted tree is held within its limit");
        for (kind, seen) in QUICK.into_iter().zip(seen) {
            let made = score(kind, random, table, &tree);
            assert!(best <= made, "{kind:?} {made:?}: {}", show(table));
            seen[usize::from(best.0 < made.0)] += 1;
        }
    }

    #[test]
    fn best_of_all_small_trees() {
        let random = &mut Random::new(808);
        for_each_table(1..=5, &[1, 2, 3], &[3, 4, 5, 6], |table| {
            check(random, table, best_of_plans);
        });
    }

    #[test]
    fn best_of_random_small_trees() {
        let random = &mut Random::new(809);
        for _ in 0..20000 {
            let limit = random.pick(&[5, 8, 20]);
            let table = any_table(random, 8, limit).bytes();
            check(random, &table, best_of_plans);
        }
    }

    #[test]
    fn best_of_all_run_sets() {
        let random = &mut Random::new(810);
        for_each_table(1..=5, &[1, 2, 3], &[3, 5], |table| {
            check(random, table, best_of_run_sets);
        });
        for _ in 0..2000 {
            let table = any_table(random, 7, 10).bytes();
            check(random, &table, best_of_run_sets);
        }
    }

    /// All weights from 0 to 3 with the limits 1 to 3, by best, and no other planner is below it.
    /// Where a weight is over the limit no set of runs holds the tree, and all refuse it.
    #[test]
    fn best_of_all_run_sets_with_notes() {
        let random = &mut Random::new(816);
        let mut seen = [0, 0];
        for_each_table_and_best(1..=6, &[0, 1, 2, 3], &[1, 2, 3], |table, best| {
            seen[usize::from(best.is_some())] += 1;
            let Some(best) = best else {
                assert_eq!(doors::read_tree(table).number, 7, "{}", show(table));
                return;
            };
            let tree = read(table).expect("an accepted table");
            for kind in KINDS {
                let made = score(kind, random, table, &tree);
                assert!(best <= made, "{kind:?} {made:?}: {}", show(table));
                if kind == Kind::Best {
                    assert_eq!(made, best, "{}", show(table));
                }
            }
        });
        assert!(seen.iter().all(|&trees| trees > 200_000), "{seen:?}");
    }

    /// Trees whose best plan has a run of more nodes than the limit: with shorter runs only, by
    /// search, there is a page more.
    #[test]
    fn a_cap_of_nodes_costs_a_page() {
        let random = &mut Random::new(817);
        for table in [
            note_between(),
            notes_between(),
            small_e_with_note(),
            notes_at_the_ends(),
            case_e_with_notes(),
        ] {
            let table = table.bytes();
            let tree = read(&table).expect("an accepted table");
            let made = score(Kind::Best, random, &table, &tree);
            let limit = tree.limit as usize;
            let capped = best_of_plans_where(&tree, |marks| longest_run(&tree, marks) <= limit);
            assert_eq!(capped.map(|best| best.0), Some(made.0 + 1));
        }
    }

    /// Notes among the nodes of a tree cost nothing, also where the tree is too large for a search.
    #[test]
    fn notes_cost_nothing() {
        let random = &mut Random::new(818);
        for round in 0..2000 {
            // With notes they are up to nine times as many.
            let most = if round % 100 == 0 { 110 } else { 40 };
            let table = any_table(random, most, 12).bytes();
            let tree = read(&table).expect("an accepted table");
            let noted = noted(random, &tree).bytes();
            let noted_tree = read(&noted).expect("an accepted table");
            let made = score(Kind::Best, random, &noted, &noted_tree);
            assert_eq!(made, score(Kind::Best, random, &table, &tree));
        }
    }

    /// Small trees, whose best score a search tells, with notes up to the most nodes there may be.
    #[test]
    fn notes_up_to_the_most_nodes() {
        let random = &mut Random::new(821);
        for round in 0..200 {
            let limit = random.pick(&[3, 8, 20]);
            let tree = read(&any_table(random, 8, limit).bytes()).expect("an accepted table");
            let count = [1024, 1025, 2047, 2048][round % 4];
            let noted = noted_up_to(random, &tree, count).bytes();
            let noted_tree = read(&noted).expect("an accepted table");
            let made = score(Kind::Best, random, &noted, &noted_tree);
            assert_eq!(Some(made), best_of_plans(&tree), "{tree:?}");
        }
    }

    /// Nodes of weight 1, all in one chain or all below node 1: pages are as few as the weight asks
    /// for, and node 1's has what the others, all of them full, leave.
    #[test]
    fn best_of_chains_and_flat_trees() {
        let random = &mut Random::new(822);
        for count in [1023, 1024, 1025, 2047, 2048] {
            let chain: Parents = (0..count).collect();
            let flat: Parents = (0..count).map(|node| node.min(1)).collect();
            for limit in [1, 2, 3, 16, 100, 1023, 1024] {
                for parents in [&chain, &flat] {
                    let table = Table::new(limit as u16, parents, &vec![1; count]).bytes();
                    let tree = read(&table).expect("an accepted table");
                    let made = score(Kind::Best, random, &table, &tree);
                    let root = (count - 1) % limit + 1;
                    assert_eq!(
                        made,
                        (count.div_ceil(limit), root as u32),
                        "{count} {limit}"
                    );
                }
            }
        }
    }

    /// Each planner meets the fewest pages somewhere, and misses them somewhere.
    fn expect_both(seen: [[usize; 2]; 2]) {
        let mut counts = seen.iter().flatten();
        assert!(counts.all(|&trees| trees >= 100), "{seen:?}");
    }

    #[test]
    fn quick_of_all_small_trees() {
        let random = &mut Random::new(812);
        let mut seen = [[0; 2]; 2];
        for_each_table(1..=5, &[1, 2, 3], &[3, 4, 5, 6], |table| {
            check_quick(random, table, &mut seen);
        });
        expect_both(seen);
    }

    #[test]
    fn quick_of_random_small_trees() {
        let random = &mut Random::new(813);
        let mut seen = [[0; 2]; 2];
        for _ in 0..20000 {
            let limit = random.pick(&[5, 8, 20]);
            let table = any_table(random, 8, limit).bytes();
            check_quick(random, &table, &mut seen);
        }
        expect_both(seen);
    }

    /// Where no search can be had, the library's best planner is not undercut.
    #[test]
    fn quick_of_large_trees() {
        let random = &mut Random::new(814);
        for round in 0..60 {
            let limit = random.pick(&[1, 5, 30, 200]);
            let count = random.pick(&[50, 200, 1024, 2048]);
            let table = random_table(random, FORMS[round % 5], count, limit).bytes();
            let tree = read(&table).expect("an accepted table");
            let best = score(Kind::Best, random, &table, &tree);
            for kind in QUICK {
                let made = score(kind, random, &table, &tree);
                assert!(best <= made, "{kind:?} {made:?}: {}", show(&table));
            }
        }
    }
}
