//! The archive's readers of the library, one for each edition.

use balduqen_tests::cases::*;
use balduqen_tests::check::{file_all, first_unfiled, show, with_copy, Lent, Seen};
use balduqen_tests::entries::LIBRARY;
use balduqen_tests::exhaustive::for_each_plan;
use balduqen_tests::film::*;
use balduqen_tests::gen::*;
use balduqen_tests::kept::kept;
use balduqen_tests::model::{read, read_as_before, verdict, word, Answer, Edition, FIRST};
use balduqen_tests::tests_of_editions;

/// The library's answer, table and marks, checked against the model's. The buffers hold these bytes
/// on entry.
fn read_into(
    edition: Edition,
    archive: &[u8],
    table: &[u8],
    marks: &[u8],
) -> (Answer, Vec<u8>, Vec<u8>) {
    let (mut model_table, mut model_marks) = (table.to_vec(), marks.to_vec());
    let model_answer = edition.read(archive, &mut model_table, &mut model_marks);
    let read = LIBRARY.film(edition).read;
    let mut lent_table = Lent::new(table, 0xa5);
    let mut lent_marks = Lent::new(marks, 0x5a);
    let answer = with_copy(archive, |archive| {
        read(archive, lent_table.slice(), lent_marks.slice())
    });
    assert_eq!(answer, model_answer, "{}", show(archive));
    let (new_table, new_marks) = (lent_table.content(), lent_marks.content());
    assert_eq!(new_table, model_table, "{answer:?}: {}", show(archive));
    assert_eq!(new_marks, model_marks, "{answer:?}: {}", show(archive));
    if answer.is_accepted() {
        assert_rewritten(edition, archive, new_table, new_marks);
    } else {
        assert!(new_table == table && new_marks == marks, "{answer:?}");
    }
    (answer, new_table.to_vec(), new_marks.to_vec())
}

/// An archive that is read is the very one that writing what was read gives. With a label 0 that is
/// refused; it holds of the archive and the table with these lots filed.
fn assert_rewritten(edition: Edition, archive: &[u8], table: &[u8], marks: &[u8]) {
    let write = LIBRARY.film(edition).write;
    let mut again = vec![7; archive.len()];
    let (mut archive, mut table) = (archive.to_vec(), table.to_vec());
    if let Some(node) = first_unfiled(&table) {
        assert_eq!(edition, FIRST, "{}", show(&archive));
        let refusal = write(&table, marks, &mut again);
        assert_eq!(refusal, Answer::refused(14, node), "{}", show(&archive));
        assert!(again.iter().all(|&byte| byte == 7));
        let node_records = 2 * edition.node_at(edition.head(&archive)[2], 1);
        file_all(&mut archive[node_records..]);
        file_all(&mut table[4..]);
    }
    let answer = write(&table, marks, &mut again);
    assert!(answer.is_accepted(), "{answer:?}: {}", show(&archive));
    assert!(again == archive, "{}; {}", show(&again), show(&archive));
}

/// Reads into buffers of the lengths that the archive's head asks for.
fn read_archive(edition: Edition, archive: &[u8]) -> Answer {
    let count = if archive.len() < 2 * edition.page_at(1) {
        0
    } else {
        edition.head(archive)[0]
    };
    read_into(edition, archive, &vec![7; 4 + 8 * count], &vec![7; count]).0
}

fn case_e_and_its_plan(edition: Edition) {
    let told = (
        Answer::accepted(3, 5),
        case_e().bytes(),
        MARKS_OF_E.to_vec(),
    );
    let film = film_of_e(edition);
    assert_eq!(read_into(edition, &film, &[7; 52], &[7; 6]), told);
    let thirteen = Answer::refused(13, 0);
    assert_eq!(read_into(edition, &[], &[], &[]).0, thirteen);
    let refusal = (LIBRARY.film(edition).read)(&film, &mut [], &mut []);
    assert_eq!(refusal, Answer::refused(12, 52));
    assert_eq!(read_into(edition, &[], &[7; 52], &[7; 6]).0, thirteen);
}

/// 13, then 12, then 8.
fn order_of_the_checks(edition: Edition) {
    let good = film_of_e(edition);
    let mut bad = good.clone();
    *bad.last_mut().expect("a byte") = 1;
    for table in [0, 4, 51, 52, 53, 60] {
        for marks in [0, 5, 6, 7, 12] {
            let refusal = Answer::refused(13, 0);
            let answer = read_into(edition, &bad, &vec![7; table], &vec![7; marks]).0;
            assert_eq!(answer, refusal);
            let expected = match (table, marks) {
                (52, 6) => Answer::accepted(3, 5),
                (52, _) => Answer::refused(8, 6),
                _ => Answer::refused(12, 52),
            };
            let answer = read_into(edition, &good, &vec![7; table], &vec![7; marks]).0;
            assert_eq!(answer, expected);
        }
    }
}

fn all_plans_of_small_trees(edition: Edition) {
    let mut seen = Seen::default();
    let mut read_all = |table: &[u8]| {
        let mut tree = read(table).expect("an accepted table");
        for_each_plan(&tree, |marks| {
            let film = edition.bytes(&tree, marks);
            let answer = read_archive(edition, &film);
            // Plans that are not feasible are not read.
            assert_eq!(answer.is_accepted(), verdict(&tree, marks).is_accepted());
            seen.add(answer);
            // Nor is film of the one edition as film of the other.
            let refusal = read_archive(edition.other(), &film);
            assert_eq!(refusal, Answer::refused(13, 0));
        });
        // Nor are trees that are refused for weight.
        tree.limit = 1;
        if tree.weights.contains(&2) {
            let film = edition.bytes(&tree, &vec![1; tree.node_count()]);
            assert_eq!(read_archive(edition, &film), Answer::refused(13, 0));
        }
    };
    for_each_table(1..=5, &[1, 2], &[2, 3, 4], &mut read_all);
    for_each_table(1..=5, &[0, 1], &[1, 2], &mut read_all);
    for_each_table(1..=4, &[0, 1, 2], &[2, 3], &mut read_all);
    seen.expect(&[0, 13], 1000);
}

/// Labels of 0 and 1 are all read alike in the first edition; in the second 0 is never read.
fn all_labels_of_small_trees(edition: Edition) {
    let mut seen = Seen::default();
    for_each_table(1..=4, &[0, 1, 2], &[3], |table| {
        for_each_labelling(table, |table| {
            let tree = read_as_before(table).expect("a table that is accepted but for labels");
            let is_film = edition == FIRST || first_unfiled(table).is_none();
            for_each_plan(&tree, |marks| {
                let on_entry = (vec![7; table.len()], vec![7; marks.len()]);
                let film = edition.bytes(&tree, marks);
                let read = read_into(edition, &film, &on_entry.0, &on_entry.1);
                let verdict = verdict(&tree, marks);
                let told = match is_film && verdict.is_accepted() {
                    true => (verdict, table.to_vec(), marks.to_vec()),
                    false => (Answer::refused(13, 0), on_entry.0, on_entry.1),
                };
                assert_eq!(read, told);
                seen.add(read.0);
            });
        });
    });
    seen.expect(&[0, 13], 1000);
}

/// A label 0 hides no other fault, and is none in the first edition: of kept film with one word set
/// anew, what is read has another label, limit or parent.
fn changed_words_of_kept_film(edition: Edition) {
    for film in kept() {
        let mut seen = Seen::default();
        let archive = kept_in(edition, &film);
        let node_records = edition.node_at(film.verdict.pages as usize, 1);
        for place in 0..archive.len() / 2 {
            let is_label = place > node_records && (place - node_records) % 4 == 1;
            let is_parent = place > node_records && (place - node_records) % 4 == 2;
            let is_limit = place == edition.head_at() + 1;
            for value in [0, 1, 2, 3, 5, 20, 40, 41, 1024, 1025, 2048, 2049, 65535] {
                let mut changed = archive.clone();
                set_word(&mut changed, place, value);
                let answer = read_archive(edition, &changed);
                let mut records = changed[2 * node_records..].chunks(8);
                let is_filed = records.all(|record| word(record, 1) != 0);
                if edition != FIRST && !is_filed {
                    assert_eq!(answer, Answer::refused(13, 0), "word {place}: {value}");
                } else if is_label || changed == archive {
                    assert_eq!(answer, film.verdict, "word {place}: {value}");
                } else if !is_parent && !is_limit {
                    assert_eq!(answer, Answer::refused(13, 0), "word {place}: {value}");
                }
                seen.add(answer);
            }
        }
        match (edition, film.name) {
            (FIRST, _) => seen.expect(&[0, 13], 10),
            // With one label set anew there is another that is 0.
            (_, "forty nodes") => seen.expect(&[13], 10),
            _ => seen.expect(&[0, 13], 10),
        }
    }
}

fn random_archives(edition: Edition) {
    let random = &mut Random::new(1002);
    let mut seen = Seen::default();
    for round in 0..10000 {
        let most = most_nodes(edition, round, 50, 30);
        let (table, archive) = random_film(random, edition, most, 60);
        let count = word(&table, 0);
        let table_length = table.len() - 2 + random.pick(&[0, 1, 2, 2, 2, 2, 2, 2, 3, 4]);
        let marks_length = count - 1 + random.pick(&[0, 1, 1, 2]);
        let buffers = (random.bytes(table_length), random.bytes(marks_length));
        let answer = read_into(edition, &archive, &buffers.0, &buffers.1).0;
        let is_film = edition == FIRST || first_unfiled(&table).is_none();
        assert_eq!(answer.number != 13, is_film);
        seen.add(answer);
    }
    match edition {
        FIRST => seen.expect(&[0, 8, 12], 1000),
        _ => seen.expect(&[0, 8, 12, 13], 1000),
    }
}

fn largest_archives(edition: Edition) {
    let random = &mut Random::new(1003);
    let count = edition.most_nodes;
    for form in FORMS {
        let table = random_table(random, form, count, 1024).bytes();
        let tree = read(&table).expect("an accepted table");
        for marks in [vec![1; count], feasible_plan(random, &tree)] {
            let archive = edition.bytes(&tree, &marks);
            assert!(read_archive(edition, &archive).is_accepted());
            let refusal = read_archive(edition.other(), &archive);
            assert_eq!(refusal, Answer::refused(13, 0));
            for _ in 0..20 {
                read_archive(edition, &changed_words(random, edition, &archive));
            }
        }
    }
}

/// Film that would be sound but for its nodes, which are more than the edition takes: 13, into
/// buffers of any length.
fn longer_archives(edition: Edition) {
    let random = &mut Random::new(1006);
    let refusal = Answer::refused(13, 0);
    let (most, head) = (edition.most_nodes, edition.head_at());
    let mut counts = vec![1025, 1026, 2047, 2048, 2049];
    counts.retain(|&count| count > most);
    for (form, count) in forms_with(&counts) {
        let table = random_table(random, form, count.min(2048), 1024).bytes();
        let tree = read(&table).expect("an accepted table");
        let ones = vec![1; tree.node_count()];
        for marks in [ones, feasible_plan(random, &tree)] {
            let mut archive = edition.bytes(&tree, &marks);
            if count == 2049 {
                // Another leaf, on the page of node 1 or not.
                set_word(&mut archive, head, 2049);
                archive.extend([0, 0, 0, 1, 0, 1, 0, 0]);
            }
            assert_eq!(read_archive(edition, &archive), refusal);
            for table in [
                0,
                4,
                8196,
                8204,
                table.len() - 1,
                table.len(),
                table.len() + 1,
            ] {
                for marks in [0, 1024, 1025, count - 1, count, count + 1] {
                    let answer = read_into(edition, &archive, &vec![7; table], &vec![7; marks]).0;
                    assert_eq!(answer, refusal);
                }
            }
            // The head of a shorter one, and one that is shorter.
            let pages = edition.head(&archive)[2];
            let mut shorter = archive.clone();
            set_word(&mut shorter, head, most);
            assert_eq!(read_archive(edition, &shorter), refusal);
            shorter.truncate(edition.length(pages, most));
            read_archive(edition, &shorter);
            archive.truncate(edition.length(pages, most));
            assert_eq!(read_archive(edition, &archive), refusal);
        }
    }
}

/// Every number of nodes around the first edition's most and the table's, on few pages and with a
/// page each.
fn every_number_of_nodes(edition: Edition) {
    for count in (1000..=1050).chain(2040..=2048) {
        let table = long_case_e(count).bytes();
        let tree = read(&table).expect("an accepted table");
        let marks = [&MARKS_OF_E[..], &vec![0; count - 6]].concat();
        for marks in [marks, vec![1; count]] {
            let expected = match (edition, count) {
                (FIRST, 1025..) => Answer::refused(13, 0),
                _ => verdict(&tree, &marks),
            };
            let film = edition.bytes(&tree, &marks);
            assert_eq!(read_archive(edition, &film), expected);
        }
    }
}

fn every_single_byte_change(edition: Edition) {
    let mut seen = Seen::default();
    for archive in small_films(edition) {
        for place in 0..archive.len() {
            for value in 0..=255 {
                let mut changed = archive.clone();
                changed[place] = value;
                seen.add(read_archive(edition, &changed));
            }
        }
    }
    seen.expect(&[0, 13], 1000);
}

fn every_single_word_change(edition: Edition) {
    let mut seen = Seen::default();
    for archive in small_films(edition) {
        for_each_word_change(&archive, |changed| {
            seen.add(read_archive(edition, changed));
        });
    }
    seen.expect(&[0, 13], 1000);
}

fn every_length(edition: Edition) {
    let refusal = Answer::refused(13, 0);
    for archive in small_films(edition) {
        for length in 0..archive.len() {
            assert_eq!(read_archive(edition, &archive[..length]), refusal);
        }
        for more in 1..=24 {
            let longer = [&archive[..], &vec![0; more]].concat();
            assert_eq!(read_archive(edition, &longer), refusal);
        }
    }
}

fn changed_archives(edition: Edition) {
    let random = &mut Random::new(1004);
    let mut seen = Seen::default();
    for round in 0..40000 {
        let most = most_nodes(edition, round, 200, 6);
        let limit = random.pick(&[12, 100]);
        let (_, archive) = random_film(random, edition, most, limit);
        let changed = changed_words(random, edition, &archive);
        seen.add(read_archive(edition, &changed));
        seen.add(read_archive(edition, &flipped(random, archive)));
    }
    seen.expect(&[0, 13], 1000);
}

/// As many parents are accepted as there are shapes.
fn all_parents_of_one_page(edition: Edition) {
    for (count, shapes) in [(1, 1), (2, 1), (3, 2), (4, 5), (5, 14)] {
        let mut accepted = 0;
        for_each_parenting(edition, count, |archive| {
            accepted += usize::from(read_archive(edition, archive).is_accepted());
        });
        assert_eq!(accepted, shapes);
    }
}

/// Two page records, two node records or one of each change places.
fn exchanged_records(edition: Edition) {
    let random = &mut Random::new(1005);
    for _ in 0..10000 {
        let (_, archive) = random_film(random, edition, 8, 12);
        let [count, _, pages] = edition.head(&archive);
        let mut record = || match random.between(1, pages + count) {
            page if page <= pages => (edition.page_at(page), edition.page_words),
            other => (edition.node_at(pages, other - pages), 4),
        };
        let (one, other) = (record(), record());
        let mut changed = archive.clone();
        for byte in 0..2 * one.1.min(other.1) {
            changed.swap(2 * one.0 + byte, 2 * other.0 + byte);
        }
        read_archive(edition, &changed);
    }
}

/// Heads with counts at or near the ends, and the lengths that they ask for.
fn heads(edition: Edition) {
    let refusal = Answer::refused(13, 0);
    let values = [0, 1, 2, 3, 1023, 1024, 1025, 2048, 2049, 65535];
    for nodes in values {
        for limit in [0, 1, 2, 3, 1023, 1024, 1025, 65535] {
            for pages in values {
                let words = [edition.opening, &[nodes, limit, pages]].concat();
                let head: Vec<u8> = words
                    .iter()
                    .flat_map(|&word| (word as u16).to_be_bytes())
                    .collect();
                let asked = edition.length(pages, nodes) - head.len();
                for length in [0, 1, 8, asked] {
                    let archive = [&head[..], &vec![0; length]].concat();
                    assert_eq!(read_archive(edition, &archive), refusal);
                }
            }
        }
    }
    for first in 0..=255 {
        for short in [&[first][..], &[0, first], &[32, first]] {
            assert_eq!(read_archive(edition, short), refusal);
        }
    }
}

tests_of_editions!(
    case_e_and_its_plan order_of_the_checks all_plans_of_small_trees all_labels_of_small_trees
    changed_words_of_kept_film random_archives largest_archives longer_archives
    every_number_of_nodes every_single_byte_change every_single_word_change every_length
    changed_archives all_parents_of_one_page exchanged_records heads
);
