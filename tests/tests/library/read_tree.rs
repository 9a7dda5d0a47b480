//! The tree reader of the library.

use balduqen::doors;
use balduqen_tests::cases::*;
use balduqen_tests::check::{show, with_copy, Seen};
use balduqen_tests::gen::*;
use balduqen_tests::model::{self, Answer};

/// The library's answer, checked against the model's.
fn read_tree(table: &[u8]) -> Answer {
    let answer = with_copy(table, doors::read_tree);
    assert_eq!(answer, model::read_tree(table), "{}", show(table));
    answer
}

/// Tables of the cases and some random ones.
fn some_tables() -> Vec<Table> {
    let random = &mut Random::new(601);
    let mut tables = vec![case_a(), case_c(), case_d(), case_e(), case_f(), case_g()];
    tables.extend((0..6).map(|_| any_table(random, 9, 300)));
    tables
}

#[test]
fn cases() {
    for table in some_tables() {
        assert_eq!(read_tree(&table.bytes()), Answer::ACCEPTED);
    }
    let refused = refused_tables().into_iter().chain(faulty_tables());
    for (table, number, place) in refused.chain(once_refused_tables()) {
        assert_eq!(read_tree(&table), Answer::refused(number, place));
    }
}

#[test]
fn shortest_tables() {
    read_tree(&[]);
    for first in 0..=255 {
        read_tree(&[first]);
        for second in 0..=255 {
            read_tree(&[first, second]);
        }
    }
}

/// Tables of three and more bytes whose counts and limits are at or near the ends.
#[test]
fn heads() {
    let values = [0, 1, 2, 3, 4, 5, 8, 127, 128, 255];
    let mut seen = Seen::default();
    for first in values {
        for second in values {
            for third in values {
                seen.add(read_tree(&[first, second, third]));
                for fourth in values {
                    let head = [first, second, third, fourth];
                    for zeros in [0, 1, 7, 8, 9, 16] {
                        let mut table = [&head[..], &vec![0; zeros]].concat();
                        seen.add(read_tree(&table));
                        // The same with weights of 1.
                        let weights = table.iter_mut().skip(5).step_by(8);
                        weights.for_each(|weight| *weight = 1);
                        seen.add(read_tree(&table));
                    }
                }
            }
        }
    }
    seen.expect(&[1, 2, 3, 4, 14], 50);
}

#[test]
fn every_count_and_limit() {
    let mut table = case_e();
    for value in 0..=u16::MAX {
        table.count = value;
        read_tree(&table.bytes());
        table.count = 6;
        table.limit = value;
        read_tree(&table.bytes());
        table.limit = 5;
    }
}

/// Of all words, those up to the limit are weights, 0 among them.
#[test]
fn every_weight() {
    for node in [1, 3, 6] {
        let mut table = case_e();
        for weight in 0..=u16::MAX {
            table.records[node - 1].weight = weight;
            let expected = match weight {
                0..=5 => Answer::ACCEPTED,
                _ => Answer::refused(7, node),
            };
            assert_eq!(read_tree(&table.bytes()), expected);
        }
    }
}

/// Of all words, only 0 is no label.
#[test]
fn every_label() {
    for node in [1, 3, 6] {
        let mut table = case_e();
        for label in 0..=u16::MAX {
            table.records[node - 1].label = label;
            let expected = match label {
                0 => Answer::refused(14, node),
                _ => Answer::ACCEPTED,
            };
            assert_eq!(read_tree(&table.bytes()), expected);
        }
    }
}

#[test]
fn every_length() {
    for table in some_tables() {
        let bytes = table.bytes();
        for length in 0..=bytes.len() {
            read_tree(&bytes[..length]);
        }
        for more in 1..=40 {
            for value in [0, 1, 255] {
                read_tree(&[&bytes[..], &vec![value; more]].concat());
            }
        }
    }
}

#[test]
fn every_single_byte_change() {
    for table in some_tables() {
        let bytes = table.bytes();
        for place in 0..bytes.len() {
            for value in 0..=255 {
                let mut changed = bytes.clone();
                changed[place] = value;
                read_tree(&changed);
            }
        }
    }
}

/// All links from 0 to one above the count. As many are accepted as there are shapes.
#[test]
fn all_links_of_small_tables() {
    for (count, shapes) in [(1, 1), (2, 1), (3, 2), (4, 5)] {
        let mut accepted = 0;
        for_each_linking(count, |table| {
            accepted += usize::from(read_tree(&table.bytes()).is_accepted());
        });
        assert_eq!(accepted, shapes);
    }
}

/// All labels of 0 and 1, with all links and with weights of 0 and over the limit.
#[test]
fn all_labels_of_small_tables() {
    let mut seen = Seen::default();
    let mut read_all = |table: &[u8]| {
        for_each_labelling(table, |table| seen.add(read_tree(table)));
    };
    for count in 1..=3 {
        for_each_linking(count, |table| read_all(&table.bytes()));
    }
    for_each_table(1..=5, &[0, 1, 3], &[2], &mut read_all);
    seen.expect(&[0, 6, 7, 14], 20);
}

#[test]
fn valid_tables() {
    let random = &mut Random::new(602);
    for _ in 0..5000 {
        assert_eq!(
            read_tree(&any_table(random, 60, 1024).bytes()),
            Answer::ACCEPTED
        );
    }
    for _ in 0..200 {
        assert_eq!(
            read_tree(&any_table(random, 2048, 1024).bytes()),
            Answer::ACCEPTED
        );
    }
}

#[test]
fn damaged_tables() {
    let random = &mut Random::new(603);
    let mut seen = Seen::default();
    for round in 0..40000 {
        let most = if round % 100 == 0 { 2048 } else { 20 };
        let table = any_table(random, most, 20);
        seen.add(read_tree(&damaged(random, &table)));
    }
    seen.expect(&[0, 1, 2, 3, 4, 6, 7, 14], 50);
}

/// Several links at random, so that loops, lost branches and early ends come at any place, and at
/// times labels of 0.
#[test]
fn random_links() {
    let random = &mut Random::new(604);
    let mut seen = Seen::default();
    for round in 0..40000 {
        let most = if round % 50 == 0 { 2048 } else { 12 };
        let mut table = any_table(random, most, 20);
        if random.once_in(4) {
            table = table.unfiled(random);
        }
        let count = table.records.len();
        for _ in 0..random.between(1, 3) {
            let place = random.between(0, count - 1);
            let (near, any) = (place + random.between(0, 3), random.between(0, count + 1));
            let link = random.pick(&[0, near, any]) as u16;
            let record = &mut table.records[place];
            match random.once_in(2) {
                true => record.first_child = link,
                false => record.next_sibling = link,
            }
        }
        seen.add(read_tree(&table.bytes()));
    }
    seen.expect(&[0, 6, 14], 500);
}

/// Weights, labels, links and limits at random all at once: the first check that fails answers.
#[test]
fn many_faults() {
    let random = &mut Random::new(605);
    let mut seen = Seen::default();
    for _ in 0..40000 {
        let mut table = any_table(random, 10, 20);
        let count = table.records.len();
        for _ in 0..random.between(1, 4) {
            let link = random.between(0, count + 1) as u16;
            let place = random.between(0, count - 1);
            let record = &mut table.records[place];
            match random.between(1, 9) {
                1 => table.count = random.pick(&[0, 2049]),
                2 => table.limit = random.pick(&[0, 1025]),
                3 => record.weight = 0,
                4 | 5 => record.weight = random.pick(&[21, 1024, 65535]),
                6 => record.first_child = link,
                7 => record.next_sibling = link,
                8 => record.label = 0,
                _ => table.limit = 1,
            }
        }
        let mut bytes = table.bytes();
        if random.once_in(6) {
            bytes.pop();
        }
        seen.add(read_tree(&bytes));
    }
    seen.expect(&[0, 2, 3, 4, 6, 7, 14], 50);
}

/// Long tables of each form, up to the longest, whole and with one fault.
#[test]
fn longest_tables() {
    let random = &mut Random::new(606);
    for (form, count) in forms_with(&[1024, 1025, 2047, 2048]) {
        let table = random_table(random, form, count, 1024);
        assert_eq!(read_tree(&table.bytes()), Answer::ACCEPTED);
        for _ in 0..100 {
            read_tree(&damaged(random, &table));
        }
        let last = count - 1;
        let mut heavy = table.clone();
        heavy.records[last].weight = 1025;
        assert_eq!(read_tree(&heavy.bytes()), Answer::refused(7, count));
        let mut light = heavy.clone();
        light.records[last].weight = 0;
        assert_eq!(read_tree(&light.bytes()), Answer::ACCEPTED);
        let mut longer = heavy.clone();
        longer.records[last].next_sibling = count as u16 + 1;
        assert_eq!(read_tree(&longer.bytes()), Answer::refused(6, count));
        let mut unfiled = longer.clone();
        unfiled.records[last].label = 0;
        assert_eq!(read_tree(&unfiled.bytes()), Answer::refused(14, count));
        // One node more, which is a leaf: too many only after 2,048.
        let mut more = light.clone();
        more.records[last].next_sibling = count as u16 + 1;
        more.count += 1;
        more.records.push(light.records[last]);
        let expected = match count {
            2048 => Answer::refused(2, 2049),
            _ => Answer::ACCEPTED,
        };
        assert_eq!(read_tree(&more.bytes()), expected);
        let over = Table {
            limit: 1025,
            ..table
        };
        assert_eq!(read_tree(&over.bytes()), Answer::refused(3, 1025));
    }
}

/// Every number of nodes with as many records: a tree up to 2,048.
#[test]
fn every_number_of_nodes() {
    let table = random_table(&mut Random::new(607), Form::Flat, 2050, 9);
    for count in 2..=2050 {
        let mut shorter = Table {
            count: count as u16,
            limit: 9,
            records: table.records[..count].to_vec(),
        };
        shorter.records[count - 1].next_sibling = 0;
        let expected = match count {
            ..=2048 => Answer::ACCEPTED,
            _ => Answer::refused(2, count),
        };
        assert_eq!(read_tree(&shorter.bytes()), expected);
    }
}
