//! The archive's writers of the library, one for each edition.

use balduqen_tests::cases::*;
use balduqen_tests::check::{show, with_copy, Lent, Seen};
use balduqen_tests::entries::LIBRARY;
use balduqen_tests::film::most_nodes;
use balduqen_tests::gen::*;
use balduqen_tests::model::{judge, read, scratch_length, verdict, word, Answer, Edition, Tree};
use balduqen_tests::tests_of_editions;

/// The library's answer and archive, checked against the model's. The buffer holds these bytes on
/// entry.
fn write_archive(
    edition: Edition,
    table: &[u8],
    marks: &[u8],
    on_entry: &[u8],
) -> (Answer, Vec<u8>) {
    let mut model_archive = on_entry.to_vec();
    let model_answer = edition.write(table, marks, &mut model_archive);
    let write = LIBRARY.film(edition).write;
    let mut lent = Lent::new(on_entry, 0xa5);
    let answer = with_copy(table, |table| {
        with_copy(marks, |marks| write(table, marks, lent.slice()))
    });
    assert_eq!(answer, model_answer, "{}; {}", show(table), show(marks));
    let archive = lent.content();
    assert_eq!(
        archive,
        model_archive,
        "{answer:?}: {}; {}",
        show(table),
        show(marks)
    );
    if !answer.is_accepted() {
        assert_eq!(archive, on_entry, "{answer:?}");
    }
    (answer, archive.to_vec())
}

/// The length that an archive of these should have; some length, where they are refused.
fn right_length(edition: Edition, table: &[u8], marks: &[u8]) -> usize {
    edition.length(judge(table, marks).pages as usize, marks.len())
}

/// 15 where the edition takes fewer nodes than these.
fn fifteen(edition: Edition, count: usize) -> Option<Answer> {
    (edition.number == 1 && count > 1024).then_some(Answer::refused(15, count))
}

fn case_e_and_its_plan(edition: Edition) {
    let (table, film) = (case_e().bytes(), film_of_e(edition));
    let right = film.len();
    let (answer, archive) = write_archive(edition, &table, &MARKS_OF_E, &vec![7; right]);
    assert_eq!((answer, archive), (Answer::accepted(3, 5), film));
    for length in 0..200 {
        let answer = write_archive(edition, &table, &MARKS_OF_E, &vec![7; length]).0;
        let refusal = Answer::refused(12, right);
        assert_eq!(answer == refusal, length != right);
    }
    let refusal = (LIBRARY.film(edition).write)(&table, &MARKS_OF_E, &mut []);
    assert_eq!(refusal, Answer::refused(12, right));
}

/// Case E with a fault for any selection of the numbers 1 to 4, 6 to 8, 10, 11, 12 and 14.
fn order_of_the_checks(edition: Edition) {
    let right = film_of_e(edition).len();
    for (table, marks, judged) in faulty_plans() {
        let refusal = match judged.number {
            0 => Answer::refused(12, right),
            _ => judged,
        };
        for (length, expected) in [(0, refusal), (right - 1, refusal), (right, judged)] {
            let answer = write_archive(edition, &table, &marks, &vec![7; length]).0;
            assert_eq!(answer, expected);
        }
    }
    for (table, number, place) in refused_tables() {
        let answer = write_archive(edition, &table, &[], &[]).0;
        assert_eq!(answer, Answer::refused(number, place));
    }
    // Trees that were refused while a weight of 0 was are written, if nothing else is wrong.
    for (table, marks, expected) in once_refused_plans() {
        let length = edition.length(marks.len(), marks.len());
        let answer = write_archive(edition, &table, &marks, &vec![7; length]).0;
        assert_eq!(answer, expected);
    }
}

/// The same with as many nodes as the first edition takes, and with more: there 15 comes after all
/// that the judge refuses and before 12, whether the output is as long as it would have to be or not.
fn order_of_the_checks_of_long_trees(edition: Edition) {
    for count in [1024, 1025, 2048] {
        let right = edition.length(3, count);
        for (table, marks, judged) in faulty_long_plans(count) {
            for length in [0, right - 1, right, right + 1] {
                let expected = match (judged.number, fifteen(edition, count)) {
                    (0, Some(refusal)) => refusal,
                    (0, None) if length != right => Answer::refused(12, right),
                    _ => judged,
                };
                let answer = write_archive(edition, &table, &marks, &vec![7; length]).0;
                assert_eq!(answer, expected, "{count} nodes, {length} bytes");
            }
        }
    }
}

/// Outputs that are short, just right and long for the pages and nodes, and for 1,024 nodes; and
/// what the other edition asks for.
fn some_lengths(edition: Edition, pages: usize, nodes: usize) -> Vec<usize> {
    let mut lengths = vec![0, 1, 40_000, edition.other().length(pages, nodes)];
    for nodes in [nodes, 1024] {
        let right = edition.length(pages, nodes);
        lengths.extend(right - 2..=right + 2);
        lengths.extend([right - 10, right - 8, right + 8, right + 10, 2 * right]);
    }
    lengths
}

/// From 1,025 nodes on the first edition writes no plan, whichever planner made it, and the second
/// writes all.
fn plans_of_long_trees(edition: Edition) {
    let random = &mut Random::new(906);
    for kind in KINDS {
        for (form, count) in forms_with(&[1024, 1025, 1026, 2047, 2048]) {
            let table = random_table(random, form, count, 7).bytes();
            let mut marks = vec![7; count];
            let mut scratch = vec![7; scratch_length(count, 7)];
            let planned = kind.library()(&table, &mut marks, &mut scratch);
            let pages = planned.pages as usize;
            let right = edition.length(pages, count);
            for length in some_lengths(edition, pages, count) {
                let expected = match (fifteen(edition, count), length == right) {
                    (Some(refusal), _) => refusal,
                    (None, true) => planned,
                    (None, false) => Answer::refused(12, right),
                };
                let answer = write_archive(edition, &table, &marks, &random.bytes(length)).0;
                assert_eq!(answer, expected, "{kind:?} {form:?} {count}");
            }
        }
    }
}

/// Every number of nodes from just below the first edition's most to the table's.
fn every_number_of_nodes(edition: Edition) {
    for count in 1000..=2048 {
        let table = long_case_e(count).bytes();
        let mut marks = MARKS_OF_E.to_vec();
        marks.resize(count, 0);
        let expected = fifteen(edition, count).unwrap_or(Answer::accepted(3, 5));
        let length = edition.length(3, count);
        let answer = write_archive(edition, &table, &marks, &vec![7; length]).0;
        assert_eq!(answer, expected);
    }
}

/// 10 and 11 come before 15, at any node and page of a tree that is too long.
fn faulty_plans_of_long_trees(edition: Edition) {
    let random = &mut Random::new(907);
    let mut seen = Seen::default();
    for round in 0..400 {
        let count = random.pick(&[1024, 1025, 1500, 2048]);
        let table = random_table(random, FORMS[round % 5], count, 60).bytes();
        let tree = read(&table).expect("an accepted table");
        let mut marks = feasible_plan(random, &tree);
        let place = random.between(1, count - 1);
        match random.between(1, 3) {
            1 => marks[place] = 3,
            2 => marks[place] = 0,
            _ => {}
        }
        let length = right_length(edition, &table, &marks);
        let length = random.pick(&[length, length, length - 1, 0]);
        seen.add(write_archive(edition, &table, &marks, &vec![7; length]).0);
    }
    match edition.number {
        1 => seen.expect(&[0, 10, 11, 12, 15], 10),
        _ => seen.expect(&[0, 10, 11, 12], 10),
    }
}

fn all_marks_of_small_trees(edition: Edition) {
    let mut seen = Seen::default();
    for_each_table(1..=4, &[0, 1, 2], &[1, 2, 3, 4], |table| {
        for_each_marks(word(table, 0), |marks| {
            let length = right_length(edition, table, marks);
            for length in length - 2..=length + 2 {
                seen.add(write_archive(edition, table, marks, &vec![7; length]).0);
            }
        });
    });
    seen.expect(&[0, 7, 10, 11, 12], 500);
}

/// All labels of 0 and 1, with weights of 0 and over the limit.
fn all_labels_of_small_trees(edition: Edition) {
    let mut seen = Seen::default();
    for_each_table(1..=3, &[0, 1, 2, 4], &[3], |table| {
        for_each_labelling(table, |table| {
            for_each_marks(word(table, 0), |marks| {
                let length = right_length(edition, table, marks);
                for length in [length, length - 1] {
                    seen.add(write_archive(edition, table, marks, &vec![7; length]).0);
                }
            });
        });
    });
    seen.expect(&[0, 7, 10, 11, 12, 14], 20);
}

fn random_plans(edition: Edition) {
    let random = &mut Random::new(901);
    let mut seen = Seen::default();
    for round in 0..10000 {
        let table = any_table(random, most_nodes(edition, round, 50, 30), 60).bytes();
        let tree = read(&table).expect("an accepted table");
        let marks = any_plan(random, &tree);
        let length = right_length(edition, &table, &marks);
        let length = random.pick(&[length, length, length - 1, length + 1, length - 8]);
        let archive = random.bytes(length);
        seen.add(write_archive(edition, &table, &marks, &archive).0);
    }
    seen.expect(&[0, 11, 12], 300);
}

fn largest_archives(edition: Edition) {
    let random = &mut Random::new(902);
    let count = edition.most_nodes;
    for form in FORMS {
        let table = random_table(random, form, count, 1024).bytes();
        let tree = read(&table).expect("an accepted table");
        for marks in [vec![1; count], feasible_plan(random, &tree)] {
            let length = right_length(edition, &table, &marks);
            let answer = write_archive(edition, &table, &marks, &vec![7; length]).0;
            assert!(answer.is_accepted());
            let refusal = write_archive(edition, &table, &marks, &vec![7; length - 1]).0;
            assert_eq!(refusal, Answer::refused(12, length));
        }
    }
}

fn damaged_tables(edition: Edition) {
    let random = &mut Random::new(903);
    let mut seen = Seen::default();
    for _ in 0..20000 {
        let table = any_table(random, 12, 12);
        let damaged = damaged(random, &table);
        let count = table.records.len() + random.pick(&[0, 0, 0, 1]);
        let marks = vec![random.pick(&[1, 1, 1, 0]); count];
        let length = right_length(edition, &table.bytes(), &marks);
        let archive = random.bytes(length);
        seen.add(write_archive(edition, &damaged, &marks, &archive).0);
    }
    seen.expect(&[0, 1, 2, 3, 4, 6, 7, 8, 10, 14], 50);
}

/// What is written can be read: the same table and marks come back.
fn round_trip(edition: Edition, table: &[u8], tree: &Tree, marks: &[u8]) {
    let film = LIBRARY.film(edition);
    let verdict = verdict(tree, marks);
    let mut archive = vec![7; right_length(edition, table, marks)];
    assert_eq!((film.write)(table, marks, &mut archive), verdict);
    let mut new_table = vec![7; table.len()];
    let mut new_marks = vec![7; marks.len()];
    let answer = (film.read)(&archive, &mut new_table, &mut new_marks);
    assert_eq!(answer, verdict);
    let same = new_table == table && new_marks == marks;
    assert!(same, "{}", show(&archive));
}

fn round_trips_of_random_trees(edition: Edition) {
    let random = &mut Random::new(904);
    for round in 0..5000 {
        let limit = random.pick(&[10, 100, 1024]);
        let table = any_table(random, most_nodes(edition, round, 50, 30), limit).bytes();
        let tree = read(&table).expect("an accepted table");
        let marks = feasible_plan(random, &tree);
        round_trip(edition, &table, &tree, &marks);
    }
}

fn round_trips_of_the_largest_trees(edition: Edition) {
    let random = &mut Random::new(905);
    let count = edition.most_nodes;
    for form in FORMS {
        for limit in [1, 30, 1024] {
            let table = random_table(random, form, count, limit).bytes();
            let tree = read(&table).expect("an accepted table");
            round_trip(edition, &table, &tree, &vec![1; count]);
            for _ in 0..5 {
                let marks = feasible_plan(random, &tree);
                round_trip(edition, &table, &tree, &marks);
            }
        }
    }
}

tests_of_editions!(
    case_e_and_its_plan order_of_the_checks order_of_the_checks_of_long_trees plans_of_long_trees
    every_number_of_nodes faulty_plans_of_long_trees all_marks_of_small_trees
    all_labels_of_small_trees random_plans largest_archives damaged_tables
    round_trips_of_random_trees round_trips_of_the_largest_trees
);
