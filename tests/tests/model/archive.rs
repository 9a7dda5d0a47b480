//! The archive's writer and reader in both editions, and the converters between these.

use balduqen_tests::cases::{film_of_e, long_case_e, MARKS_OF_E};
use balduqen_tests::check::{file_all, first_unfiled};
use balduqen_tests::exhaustive::{for_each_plan, page_sizes, score_of_plan};
use balduqen_tests::film::{kept_in, most_nodes};
use balduqen_tests::gen::*;
use balduqen_tests::kept::{by_hand, kept, kept_filed};
use balduqen_tests::model::*;
use balduqen_tests::tests_of_editions;
use std::collections::BTreeSet;

/// The archive of a table and a feasible plan.
fn written(edition: Edition, table: &[u8], marks: &[u8]) -> Vec<u8> {
    let verdict = judge(table, marks);
    assert!(verdict.is_accepted());
    let mut archive = vec![7; edition.length(verdict.pages as usize, marks.len())];
    assert_eq!(edition.write(table, marks, &mut archive), verdict);
    archive
}

/// The same by the writer without 14. The writer gives it too, or 14.
fn written_as_before(edition: Edition, table: &[u8], marks: &[u8]) -> Vec<u8> {
    let tree = read_as_before(table).expect("a table that is accepted but for labels");
    let archive = edition.bytes(&tree, marks);
    match first_unfiled(table) {
        None => assert_eq!(written(edition, table, marks), archive),
        Some(node) => {
            let mut kept = vec![7; archive.len()];
            let refusal = Answer::refused(14, node);
            assert_eq!(edition.write(table, marks, &mut kept), refusal);
            assert_eq!(kept, vec![7; archive.len()]);
        }
    }
    archive
}

/// Table and marks of an archive, or none where the reader refuses it.
fn read_back(edition: Edition, archive: &[u8]) -> Option<(Vec<u8>, Vec<u8>)> {
    let count = if archive.len() < 2 * edition.page_at(1) {
        0
    } else {
        edition.head(archive)[0]
    };
    let mut table = vec![7; 4 + 8 * count];
    let mut marks = vec![7; count];
    let answer = edition.read(archive, &mut table, &mut marks);
    if answer.is_accepted() {
        let mut filed = table.clone();
        file_all(&mut filed[4..]);
        assert!(filed == table || !edition.is_filed);
        assert_eq!(answer, judge(&filed, &marks));
        return Some((table, marks));
    }
    assert_eq!(answer, Answer::refused(13, 0));
    assert!(table.iter().chain(&marks).all(|&byte| byte == 7));
    None
}

/// The film in the other edition.
fn converted(edition: Edition, archive: &[u8]) -> Vec<u8> {
    let [count, _, pages] = edition.head(archive);
    let mut out = vec![7; edition.other().length(pages, count)];
    assert!(edition.convert(archive, &mut out).is_accepted());
    out
}

/// The lengths that document 01 and request Six give.
#[test]
fn lengths() {
    for pages in 1..=2048 {
        for nodes in [1, 2, 6, 1024, 2048] {
            assert_eq!(FIRST.length(pages, nodes), 6 + 8 * pages + 8 * nodes);
            assert_eq!(SECOND.length(pages, nodes), 8 + 10 * pages + 8 * nodes);
        }
    }
}

/// Kept film is what the model tells of its tables and plans, and so is that by hand.
#[test]
fn kept_film() {
    for film in kept().iter().chain(&kept_filed()) {
        assert_eq!(kept_in(FIRST, film), film.archive, "{}", film.name);
    }
    for (film, archive) in by_hand() {
        assert_eq!(kept_in(SECOND, &film), archive, "{}", film.name);
    }
}

fn round_trip(edition: Edition, table: &[u8], marks: &[u8]) {
    let archive = written(edition, table, marks);
    // The words that follow from the verdict alone.
    let verdict = judge(table, marks);
    let of_page = |page| &archive[2 * edition.page_at(page)..2 * edition.page_at(page + 1)];
    assert_eq!(edition.head(&archive)[2], verdict.pages as usize);
    assert_eq!(word(of_page(1), 2), verdict.root as usize);
    if edition == SECOND {
        let tree = read(table).expect("an accepted table");
        let sizes = (1..=verdict.pages as usize).map(|page| word(of_page(page), 4) as u32);
        assert!(sizes.eq(page_sizes(&tree, marks)));
    }
    let told = Some((table.to_vec(), marks.to_vec()));
    assert_eq!(read_back(edition, &archive), told);
    // No archive of the one is one of the other, and there and back is the same.
    assert_eq!(read_back(edition.other(), &archive), None);
    if marks.len() <= ARCHIVE_NODES {
        let other = converted(edition, &archive);
        assert_eq!(other, written(edition.other(), table, marks));
        assert_eq!(converted(edition.other(), &other), archive);
    }
}

fn round_trips(edition: Edition) {
    let random = &mut Random::new(501);
    for round in 0..2000 {
        let table = any_table(random, most_nodes(edition, round, 20, 30), 40).bytes();
        let tree = read(&table).expect("an accepted table");
        round_trip(edition, &table, &feasible_plan(random, &tree));
    }
}

/// Film of trees with labels 0 reads back in the first edition, and is no film in the second.
fn film_of_unfiled_trees(edition: Edition) {
    let random = &mut Random::new(504);
    for _ in 0..2000 {
        let table = any_table(random, 30, 40).unfiled(random).bytes();
        let tree = read_as_before(&table).expect("a table that is accepted but for labels");
        let marks = feasible_plan(random, &tree);
        let archive = written_as_before(edition, &table, &marks);
        let told = (!edition.is_filed).then_some((table, marks));
        assert_eq!(read_back(edition, &archive), told);
    }
}

/// The largest archive, and the one with the most pages.
fn round_trips_of_the_largest(edition: Edition) {
    let random = &mut Random::new(502);
    for form in FORMS {
        let table = random_table(random, form, edition.most_nodes, 1024).bytes();
        let tree = read(&table).expect("an accepted table");
        round_trip(edition, &table, &feasible_plan(random, &tree));
        round_trip(edition, &table, &vec![1; edition.most_nodes]);
    }
}

/// All film of trees with up to three nodes, labels of 0 and 1, weights from 0 to 2, and limits up
/// to 5: in the first edition all that the writer without 14 writes.
fn all_archives(edition: Edition) -> BTreeSet<Vec<u8>> {
    let mut all = BTreeSet::new();
    for_each_table(1..=3, &[0, 1, 2], &[1, 2, 3, 4, 5], |table| {
        // Some of these outweigh the limit.
        let Ok(tree) = read(table) else {
            return;
        };
        for_each_labelling(table, |table| {
            if edition.is_filed && first_unfiled(table).is_some() {
                return;
            }
            for_each_plan(&tree, |marks| {
                if score_of_plan(&tree, marks).is_some() {
                    // No two trees and plans write the same.
                    assert!(all.insert(written_as_before(edition, table, marks)));
                }
            });
        });
    });
    all
}

/// True if `all_archives` has this archive wherever any tree and plan write it.
fn is_small(edition: Edition, archive: &[u8]) -> bool {
    let [count, limit, pages] = edition.head(archive);
    count <= 3
        && limit <= 5
        && archive.len() == edition.length(pages, count)
        && (1..=count).all(|node| {
            let record = edition.node_at(pages, node);
            word(archive, record) <= 2 && word(archive, record + 1) <= 1
        })
}

/// One or two words of each small archive are set anew. Where the result is small too, the reader
/// accepts it exactly if it is in the list of all of them.
fn changed_small_archives(edition: Edition) {
    let all = all_archives(edition);
    let mut accepted = 0;
    let mut try_one = |archive: &[u8], changed: &[u8]| {
        if is_small(edition, changed) {
            let is_written = all.contains(changed);
            let is_read = read_back(edition, changed).is_some();
            assert_eq!(is_read, is_written, "{changed:?}");
            accepted += usize::from(is_written && changed != archive);
        }
    };
    let random = &mut Random::new(503);
    for archive in &all {
        let words = archive.len() / 2;
        for place in 0..words {
            for value in 0..=6 {
                let mut changed = archive.clone();
                changed[2 * place + 1] = value;
                try_one(archive, &changed);
                let second = random.between(0, words - 1);
                changed[2 * second + 1] = random.between(0, 6) as u8;
                try_one(archive, &changed);
            }
        }
    }
    // The labels of small film of the second edition are all 1.
    let least = if edition.is_filed { 2000 } else { 14000 };
    assert!(accepted > least, "{accepted}");
}

/// No small archive of the one edition is one of the other.
#[test]
fn small_archives_of_either_edition() {
    let [first, second] = EDITIONS.map(all_archives);
    assert!(first.is_disjoint(&second));
    for archive in first {
        assert_eq!(read_back(SECOND, &archive), None);
    }
    for archive in second {
        assert_eq!(read_back(FIRST, &archive), None);
    }
}

/// Every single byte of case E's archive, every value: what is accepted is written again the same,
/// but for 14, and it differs in a label, in the limit, or in that node 3 is the child of node 2,
/// which leaves every page as it is.
fn single_byte_changes(edition: Edition) {
    let archive = film_of_e(edition);
    let (limit, nodes) = (2 * edition.head_at() + 2, 2 * edition.node_at(3, 1));
    let parent_of_3 = 2 * (edition.node_at(3, 3) + 2);
    for place in 0..archive.len() {
        for value in 0..=255 {
            let mut changed = archive.clone();
            changed[place] = value;
            // Each label has a high byte of 0.
            let is_label = place >= nodes && (place - nodes) % 8 / 2 == 1;
            let is_unfiled = is_label && place % 2 == 1 && value == 0;
            // Limits 5 to 255, and 261, 517 and 773.
            let is_limit = place == limit + 1 && value >= 5 || place == limit && value <= 3;
            let is_child_of_2 = place == parent_of_3 + 1 && value == 2;
            let free = is_label || is_limit || is_child_of_2 || changed == archive;
            let is_film = free && !(is_unfiled && edition.is_filed);
            let back = read_back(edition, &changed);
            assert_eq!(back.is_some(), is_film, "byte {place} set to {value}");
            if let Some((table, marks)) = back {
                assert_eq!(written_as_before(edition, &table, &marks), changed);
            }
        }
    }
}

/// Of all parents, those of the shapes are read.
fn all_parents_of_one_page(edition: Edition) {
    for count in 1..=5 {
        let mut accepted = vec![];
        for_each_parenting(edition, count, |archive| {
            if read_back(edition, archive).is_some() {
                let parent = |node: usize| word(archive, edition.node_at(1, node) + 2);
                accepted.push((1..=count).map(parent).collect::<Parents>());
            }
        });
        let mut told = all_parents(count);
        accepted.sort();
        told.sort();
        assert_eq!(accepted, told);
    }
}

fn archives_of_another_length(edition: Edition) {
    let archive = film_of_e(edition);
    for length in 0..archive.len() {
        assert_eq!(read_back(edition, &archive[..length]), None);
    }
    for more in [1, 2, 8, 10] {
        let longer = [&archive[..], &vec![0; more]].concat();
        assert_eq!(read_back(edition, &longer), None);
    }
}

/// 13, then 12, then 8, with all buffers left as they were.
fn order_of_the_reader(edition: Edition) {
    let good = film_of_e(edition);
    let bad = [&good[..], &[0]].concat();
    let cases = [
        (&bad, 0, 0, Answer::refused(13, 0)),
        (&bad, 52, 6, Answer::refused(13, 0)),
        (&good, 51, 5, Answer::refused(12, 52)),
        (&good, 53, 6, Answer::refused(12, 52)),
        (&good, 0, 7, Answer::refused(12, 52)),
        (&good, 52, 5, Answer::refused(8, 6)),
        (&good, 52, 7, Answer::refused(8, 6)),
        (&good, 52, 0, Answer::refused(8, 6)),
    ];
    for (archive, table_length, marks_length, refusal) in cases {
        let mut table = vec![7; table_length];
        let mut marks = vec![7; marks_length];
        assert_eq!(edition.read(archive, &mut table, &mut marks), refusal);
        assert!(table.iter().chain(&marks).all(|&byte| byte == 7));
    }
}

/// The judge's refusals come before 15, which comes from 1,025 nodes on in the first edition, and
/// that before 12.
fn order_of_the_writer(edition: Edition) {
    for count in [6, 1024, 1025, 2048] {
        let table = long_case_e(count).bytes();
        let all = |marks: [u8; 6]| [&marks[..], &vec![0; count - 6]].concat();
        let right = edition.length(3, count);
        let is_long = edition == FIRST && count > 1024;
        let of_length = match is_long {
            false => Answer::refused(12, right),
            true => Answer::refused(15, count),
        };
        let of_right_length = match is_long {
            false => Answer::accepted(3, 5),
            true => Answer::refused(15, count),
        };
        for length in [0, right - 1, right, right + 1] {
            let answered = if length == right {
                of_right_length
            } else {
                of_length
            };
            for (marks, answer) in [
                (
                    all(MARKS_OF_E)[..count - 1].to_vec(),
                    Answer::refused(8, count),
                ),
                (all([1, 2, 0, 0, 0, 3]), Answer::refused(10, 2)),
                (all([1, 0, 0, 0, 0, 0]), Answer::refused(11, 1)),
                (all(MARKS_OF_E), answered),
            ] {
                let mut archive = vec![7; length];
                assert_eq!(edition.write(&table, &marks, &mut archive), answer);
                assert!(answer.is_accepted() || archive.iter().all(|&byte| byte == 7));
            }
        }
    }
}

/// The bytes of a longer tree are told, but they are no archive of the first edition.
fn archives_of_too_many_nodes(edition: Edition) {
    for count in [1024, 1025, 2048] {
        let tree = read(&long_case_e(count).bytes()).expect("an accepted table");
        let mut marks = MARKS_OF_E.to_vec();
        marks.resize(count, 0);
        for marks in [marks, vec![1; count]] {
            let back = read_back(edition, &edition.bytes(&tree, &marks));
            assert_eq!(back.is_some(), edition == SECOND || count <= 1024);
        }
    }
}

/// Converting gives 13, then 14 for a label 0 or 15 from 1,025 nodes on, then 12, with the output
/// left as it was.
fn order_of_the_converter(edition: Edition) {
    for count in [6, 1024, 1025, 2048] {
        for unfiled in [None, Some(3), Some(count)] {
            let mut table = long_case_e(count);
            // One that is first, and the last node.
            for node in unfiled.into_iter().chain(unfiled.map(|_| count)) {
                table.records[node - 1].label = 0;
            }
            let tree = read_as_before(&table.bytes()).expect("a table that is accepted otherwise");
            let mut marks = MARKS_OF_E.to_vec();
            marks.resize(count, 0);
            let film = edition.bytes(&tree, &marks);
            let right = edition.other().length(3, count);
            for is_bad in [false, true] {
                let archive = [&film[..], if is_bad { &[0] } else { &[] }].concat();
                for length in [0, right - 1, right, right + 1] {
                    let expected = match (edition, unfiled) {
                        (FIRST, _) if is_bad || count > 1024 => Answer::refused(13, 0),
                        (FIRST, Some(node)) => Answer::refused(14, node),
                        (SECOND, _) if is_bad || unfiled.is_some() => Answer::refused(13, 0),
                        (SECOND, _) if count > 1024 => Answer::refused(15, count),
                        _ if length != right => Answer::refused(12, right),
                        _ => Answer::accepted(3, 5),
                    };
                    let mut out = vec![7; length];
                    assert_eq!(edition.convert(&archive, &mut out), expected);
                    assert!(expected.is_accepted() || out.iter().all(|&byte| byte == 7));
                }
            }
        }
    }
}

tests_of_editions!(
    round_trips film_of_unfiled_trees round_trips_of_the_largest changed_small_archives
    single_byte_changes all_parents_of_one_page archives_of_another_length order_of_the_reader
    order_of_the_writer archives_of_too_many_nodes order_of_the_converter
);
