//! The judge of the library.

use balduqen::doors;
use balduqen_tests::cases::*;
use balduqen_tests::check::{show, with_copy, Seen};
use balduqen_tests::gen::*;
use balduqen_tests::model::{self, read, verdict, word, Answer};

/// The library's answer, checked against the model's.
fn judge(table: &[u8], marks: &[u8]) -> Answer {
    check(table, marks, model::judge(table, marks))
}

fn check(table: &[u8], marks: &[u8], expected: Answer) -> Answer {
    let answer = with_copy(table, |table| {
        with_copy(marks, |marks| doors::judge(table, marks))
    });
    assert_eq!(answer, expected, "{}; {}", show(table), show(marks));
    answer
}

#[test]
fn cases() {
    for made in made() {
        let answer = judge(&made.table.bytes(), &made.marks);
        assert_eq!(
            answer,
            Answer::accepted(made.pages, made.root),
            "{}",
            made.name
        );
    }
    for (marks, number, place) in refused_marks() {
        assert_eq!(
            judge(&case_e().bytes(), &marks),
            Answer::refused(number, place)
        );
    }
    for (table, number, place) in refused_tables() {
        assert_eq!(judge(&table, &[]), Answer::refused(number, place));
    }
    for (table, marks, expected) in once_refused_plans() {
        assert_eq!(judge(&table, &marks), expected);
    }
}

/// Case E, and with as many nodes as there may be, with a fault for any selection of the numbers 1
/// to 4, 6 to 8, 10, 11 and 14.
#[test]
fn order_of_the_checks() {
    let faulty = faulty_plans().into_iter().chain(faulty_long_plans(2048));
    for (table, marks, expected) in faulty {
        assert_eq!(judge(&table, &marks), expected);
    }
}

#[test]
fn all_marks_of_small_trees() {
    let mut seen = Seen::default();
    let mut judge_all = |table: &[u8]| {
        // The model reads the tree once for all its marks, to save time.
        let tree = read(table).expect("an accepted table");
        for_each_marks(tree.node_count(), |marks| {
            seen.add(check(table, marks, verdict(&tree, marks)));
        });
    };
    for_each_table(1..=4, &[1, 2, 3], &[3, 4, 5, 6], &mut judge_all);
    for_each_table(5..=6, &[1, 2], &[2, 3, 4], &mut judge_all);
    for_each_table(1..=4, &[0, 1, 2], &[2, 3], &mut judge_all);
    for_each_table(5..=5, &[0, 1], &[1, 2], &mut judge_all);
    seen.expect(&[0, 10, 11], 1000);
}

/// All labels of 0 and 1, with weights of 0 and over the limit.
#[test]
fn all_labels_of_small_trees() {
    let mut seen = Seen::default();
    for_each_table(1..=3, &[0, 1, 2, 4], &[3], |table| {
        for_each_labelling(table, |table| {
            for_each_marks(word(table, 0), |marks| seen.add(judge(table, marks)));
        });
    });
    seen.expect(&[0, 7, 10, 11, 14], 20);
}

/// Plans of all sizes, some with a few other bytes among the marks.
#[test]
fn random_marks() {
    let random = &mut Random::new(701);
    let mut seen = Seen::default();
    for round in 0..20000 {
        let most = if round % 40 == 0 { 2048 } else { 30 };
        let table = any_table(random, most, 60).bytes();
        let tree = read(&table).expect("an accepted table");
        let mut marks = match random.once_in(2) {
            true => feasible_plan(random, &tree),
            false => random_plan(random, &tree, 3),
        };
        for _ in 0..random.pick(&[0, 0, 1, 2]) {
            let place = random.between(0, marks.len() - 1);
            let byte = random.byte();
            marks[place] = random.pick(&[0, 1, 2, 2, byte]);
        }
        seen.add(judge(&table, &marks));
    }
    seen.expect(&[0, 10, 11], 500);
}

#[test]
fn every_byte_as_a_mark() {
    for place in 0..6 {
        for value in 0..=255 {
            let mut marks = MARKS_OF_E;
            marks[place] = value;
            judge(&case_e().bytes(), &marks);
        }
    }
}

#[test]
fn marks_of_every_length() {
    let random = &mut Random::new(702);
    for _ in 0..300 {
        let table = any_table(random, 20, 20).bytes();
        let count = word(&table, 0);
        for length in 0..=count + 9 {
            let answer = judge(&table, &vec![1; length]);
            assert_eq!(answer.number == 8, length != count);
        }
    }
}

#[test]
fn damaged_tables() {
    let random = &mut Random::new(703);
    let mut seen = Seen::default();
    for _ in 0..20000 {
        let table = any_table(random, 20, 20);
        let damaged = damaged(random, &table);
        let count = table.records.len();
        let length = random.pick(&[count, count, count + 1, count - 1]);
        let mark = random.pick(&[0, 1, 2]);
        seen.add(judge(&damaged, &vec![mark; length]));
    }
    seen.expect(&[0, 1, 2, 3, 4, 6, 7, 8, 10, 14], 50);
}

/// Pages of many numbers come as the first heavy one.
#[test]
fn heavy_pages() {
    let random = &mut Random::new(704);
    let mut places = std::collections::BTreeSet::new();
    for _ in 0..3000 {
        let form = random.pick(&FORMS);
        let table = random_table(random, form, 40, 12).bytes();
        let tree = read(&table).expect("an accepted table");
        let mut marks = feasible_plan(random, &tree);
        // Joins a page to the one before it or above it.
        let place = random.between(1, 39);
        marks[place] = if tree.before[place + 1].is_some() {
            2
        } else {
            0
        };
        let answer = judge(&table, &marks);
        if answer.number == 11 {
            places.insert(answer.place);
        }
    }
    assert!(places.len() > 15, "{places:?}");
}

#[test]
fn largest_trees() {
    let random = &mut Random::new(705);
    for (form, count) in forms_with(&[1024, 1025, 2048]) {
        let table = random_table(random, form, count, 1024).bytes();
        let tree = read(&table).expect("an accepted table");
        assert_eq!(judge(&table, &vec![1; count]).pages as usize, count);
        judge(&table, &feasible_plan(random, &tree));
        let mut stays = vec![0; count];
        stays[0] = 1;
        judge(&table, &stays);
        let mut late = vec![1; count];
        late[count - 1] = 3;
        assert_eq!(judge(&table, &late), Answer::refused(10, count));
    }
}

/// Each page of the longest tree in turn is the first heavy one.
#[test]
fn every_heavy_page_of_the_largest_tree() {
    let parents = [&[0][..], &[1; 2047]].concat();
    let mut weights = vec![1024; 2048];
    weights[2047] = 1;
    let table = Table::new(1024, &parents, &weights).bytes();
    for page in 1..=2047 {
        // The sibling after the page's only node continues its run, or the child of node 1 stays.
        let mut marks = vec![1; 2048];
        marks[page] = if page == 1 { 0 } else { 2 };
        assert_eq!(judge(&table, &marks), Answer::refused(11, page));
    }
    assert_eq!(judge(&table, &[1; 2048]), Answer::accepted(2048, 1024));
}

/// The most that a page can weigh, 2,097,152, is more than 16 bits hold, and 0 in these.
#[test]
fn heaviest_page() {
    let random = &mut Random::new(706);
    for form in FORMS {
        let parents = random_parents(random, form, 2048);
        let table = Table::new(1024, &parents, &[1024; 2048]).bytes();
        let mut marks = [0; 2048];
        marks[0] = 1;
        assert_eq!(judge(&table, &marks), Answer::refused(11, 1));
    }
}
