//! The library on buffers that stand against memory that cannot be touched, each call against the
//! model. What is lent to be read stands in memory that cannot be written. A touch outside what was
//! lent ends the process, which counts as a failure.

#![allow(
    unused_must_use,
    reason = "a call here is a check, which has looked at the answer that it gives back"
)]

use balduqen::doors;
use balduqen_tests::cases::*;
use balduqen_tests::check::{show, Seen};
use balduqen_tests::entries::LIBRARY;
use balduqen_tests::film::{kept_in, most_nodes, set_word};
use balduqen_tests::gen::*;
use balduqen_tests::guarded::{Guarded, Side, SIDES};
use balduqen_tests::kept::{kept, kept_filed};
use balduqen_tests::model::{
    self, read, scratch_length, sheets_length, word, Answer, Edition, Saving, ARCHIVE_NODES,
    EDITIONS, FIRST, MAX_NODES,
};
use balduqen_tests::tests_of_editions;
use std::env;
use std::os::unix::process::ExitStatusExt;
use std::process::{Command, Stdio};

fn read_tree(table: &[u8]) -> Answer {
    let expected = model::read_tree(table);
    for side in SIDES {
        let table = Guarded::read_only(table, side);
        let answer = doors::read_tree(table.content());
        assert_eq!(answer, expected, "{}", show(table.content()));
    }
    expected
}

fn judge(table: &[u8], marks: &[u8]) -> Answer {
    let expected = model::judge(table, marks);
    for side in SIDES {
        let table = Guarded::read_only(table, side);
        let marks = Guarded::read_only(marks, side);
        let answer = doors::judge(table.content(), marks.content());
        assert_eq!(answer, expected, "{}", show(table.content()));
    }
    expected
}

fn price(table: &[u8], marks: &[u8]) {
    let expected = model::price(table, marks);
    for side in SIDES {
        let table = Guarded::read_only(table, side);
        let marks = Guarded::read_only(marks, side);
        let price = doors::price(table.content(), marks.content());
        assert_eq!(price, expected, "{}", show(table.content()));
    }
}

/// The buffers hold these on entry, here and below.
fn plan(kind: Kind, table: &[u8], marks: &[u8], scratch: &[u32]) -> Answer {
    let (mut model_marks, mut model_scratch) = (marks.to_vec(), scratch.to_vec());
    let expected = kind.model()(table, &mut model_marks, &mut model_scratch);
    for side in SIDES {
        let table = Guarded::read_only(table, side);
        let mut marks = Guarded::new(marks, side);
        let mut scratch = Guarded::new(scratch, side);
        let answer = kind.library()(table.content(), marks.slice(), scratch.slice());
        assert_eq!(answer, expected, "{kind:?}: {}", show(table.content()));
        assert!(marks.content() == model_marks && scratch.content() == model_scratch);
    }
    expected
}

fn saving(table: &[u8], marks: &[u8], scratch: &[u32]) -> Saving {
    let (mut model_marks, mut model_scratch) = (marks.to_vec(), scratch.to_vec());
    let expected = model::saving(table, &mut model_marks, &mut model_scratch);
    for side in SIDES {
        let table = Guarded::read_only(table, side);
        let mut marks = Guarded::new(marks, side);
        let mut scratch = Guarded::new(scratch, side);
        let saving = doors::saving(table.content(), marks.slice(), scratch.slice());
        assert_eq!(saving, expected, "{}", show(table.content()));
        assert!(marks.content() == model_marks && scratch.content() == model_scratch);
    }
    expected
}

/// Hands these to each planner, and to the saving, which takes the same buffers.
fn plan_of_each_kind(table: &[u8], marks: &[u8], scratch: &[u32]) {
    for kind in KINDS {
        plan(kind, table, marks, scratch);
    }
    saving(table, marks, scratch);
}

fn write_archive(edition: Edition, table: &[u8], marks: &[u8], archive: &[u8]) -> Answer {
    let write = LIBRARY.film(edition).write;
    let mut model_archive = archive.to_vec();
    let expected = edition.write(table, marks, &mut model_archive);
    for side in SIDES {
        let table = Guarded::read_only(table, side);
        let marks = Guarded::read_only(marks, side);
        let mut archive = Guarded::new(archive, side);
        let answer = write(table.content(), marks.content(), archive.slice());
        assert_eq!(answer, expected, "{}", show(table.content()));
        assert!(archive.content() == model_archive);
    }
    expected
}

fn print_sheets(table: &[u8], marks: &[u8], sheets: &[u8]) -> Answer {
    let mut model_sheets = sheets.to_vec();
    let expected = model::print_sheets(table, marks, &mut model_sheets);
    for side in SIDES {
        let table = Guarded::read_only(table, side);
        let marks = Guarded::read_only(marks, side);
        let mut sheets = Guarded::new(sheets, side);
        let answer = doors::print_sheets(table.content(), marks.content(), sheets.slice());
        assert_eq!(answer, expected, "{}", show(table.content()));
        assert!(sheets.content() == model_sheets);
    }
    expected
}

fn read_archive(edition: Edition, archive: &[u8], table: &[u8], marks: &[u8]) -> Answer {
    let read = LIBRARY.film(edition).read;
    let (mut model_table, mut model_marks) = (table.to_vec(), marks.to_vec());
    let expected = edition.read(archive, &mut model_table, &mut model_marks);
    for side in SIDES {
        let archive = Guarded::read_only(archive, side);
        let mut table = Guarded::new(table, side);
        let mut marks = Guarded::new(marks, side);
        let answer = read(archive.content(), table.slice(), marks.slice());
        assert_eq!(answer, expected, "{}", show(archive.content()));
        assert!(table.content() == model_table && marks.content() == model_marks);
    }
    expected
}

fn convert(edition: Edition, archive: &[u8], out: &[u8]) -> Answer {
    let convert = LIBRARY.film(edition).convert;
    let mut model_out = out.to_vec();
    let expected = edition.convert(archive, &mut model_out);
    for side in SIDES {
        let archive = Guarded::read_only(archive, side);
        let mut out = Guarded::new(out, side);
        let answer = convert(archive.content(), out.slice());
        assert_eq!(answer, expected, "{}", show(archive.content()));
        assert!(out.content() == model_out);
    }
    expected
}

/// Hands a table to every entry that takes one, with this plan and with buffers that are right for so
/// many nodes and that limit. Gives the tree reader's answer.
fn hand_to_all(table: &[u8], marks: &[u8], limit: usize) -> Answer {
    let verdict = judge(table, marks);
    price(table, marks);
    plan_of_each_kind(table, marks, &vec![7; scratch_length(marks.len(), limit)]);
    let pages = verdict.pages as usize;
    for edition in EDITIONS {
        let archive = vec![7; edition.length(pages, marks.len())];
        write_archive(edition, table, marks, &archive);
    }
    print_sheets(table, marks, &vec![7; sheets_length(pages)]);
    read_tree(table)
}

/// The lengths that a lent buffer is tried with where another is asked for.
fn other_lengths(asked: usize) -> [usize; 6] {
    let far = 2 * asked + 100;
    [
        0,
        asked.saturating_sub(2),
        asked - 1,
        asked + 1,
        asked + 2,
        far,
    ]
}

/// The same, and also with each buffer in turn of another length.
fn hand_in_all_lengths(table: &[u8], marks: &[u8], limit: usize) -> Answer {
    let scratch = vec![7; scratch_length(marks.len(), limit)];
    for length in other_lengths(marks.len()) {
        let mut marks = marks.to_vec();
        marks.resize(length, 1);
        judge(table, &marks);
        price(table, &marks);
        plan_of_each_kind(table, &marks, &scratch);
        for edition in EDITIONS {
            let archive = vec![7; edition.length(length, length)];
            write_archive(edition, table, &marks, &archive);
        }
        print_sheets(table, &marks, &vec![7; sheets_length(length)]);
    }
    for length in other_lengths(scratch.len()) {
        plan_of_each_kind(table, marks, &vec![7; length]);
    }
    let pages = model::judge(table, marks).pages as usize;
    for edition in EDITIONS {
        for length in other_lengths(edition.length(pages, marks.len())) {
            write_archive(edition, table, marks, &vec![7; length]);
        }
    }
    for length in other_lengths(sheets_length(pages.max(1))) {
        print_sheets(table, marks, &vec![7; length]);
    }
    hand_to_all(table, marks, limit)
}

/// The output that a converter asks for, by the head of the film, if there is one of so many nodes.
fn converted_length(edition: Edition, archive: &[u8], count: usize) -> usize {
    let has_head = archive.len() >= 2 * edition.page_at(1);
    let pages = if has_head {
        edition.head(archive)[2]
    } else {
        1
    };
    edition.other().length(pages, count)
}

/// Hands an archive to its reader and to its converter, with buffers that are right for so many
/// nodes. Gives the reader's answer.
fn hand_to_reader(edition: Edition, archive: &[u8], count: usize) -> Answer {
    let out = vec![7; converted_length(edition, archive, count)];
    convert(edition, archive, &out);
    read_archive(edition, archive, &vec![7; 4 + 8 * count], &vec![7; count])
}

/// The same, and also with each buffer in turn of another length.
fn hand_to_reader_in_all_lengths(edition: Edition, archive: &[u8], count: usize) -> Answer {
    for length in other_lengths(converted_length(edition, archive, count)) {
        convert(edition, archive, &vec![7; length]);
    }
    for length in other_lengths(4 + 8 * count) {
        read_archive(edition, archive, &vec![7; length], &vec![7; count]);
    }
    for length in other_lengths(count) {
        read_archive(edition, archive, &vec![7; 4 + 8 * count], &vec![7; length]);
    }
    hand_to_reader(edition, archive, count)
}

/// The plan with a page for each of so many nodes.
fn ones(count: usize) -> Vec<u8> {
    vec![1; count]
}

/// Touches memory in or next to a guarded buffer, as the name says. Volatile, so that the compiler
/// leaves none of it out.
fn touch(name: &str) {
    let read = |at: *const u8| unsafe { at.read_volatile() };
    let write = |at: *const u8| unsafe { at.cast_mut().write_volatile(7) };
    let content = [1, 2, 3, 4, 5];
    let [starts, ends] = SIDES.map(|side| Guarded::new(&content, side));
    let before = starts.content().as_ptr().wrapping_sub(1);
    let after = ends.content().as_ptr_range().end;
    let read_only = Guarded::read_only(&content, Side::End);
    let empty = Guarded::new(&[0u8; 0], Side::End);
    match name {
        "read inside" => {
            assert_eq!(read(before.wrapping_add(1)), 1);
            assert_eq!(read(after.wrapping_sub(1)), 5);
        }
        "write inside" => {
            write(before.wrapping_add(1));
            write(after.wrapping_sub(1));
        }
        "read before" => _ = read(before),
        "write before" => write(before),
        "read after" => _ = read(after),
        "write after" => write(after),
        "read far after" => _ = read(after.wrapping_add(8 * 65535)),
        "read what is empty" => _ = read(empty.content().as_ptr()),
        "write what is read-only" => write(read_only.content().as_ptr()),
        _ => panic!("no such touch"),
    }
}

/// A touch outside a buffer does end the process, so that the other tests here show something. This
/// test runs itself again in a process of its own for each touch.
#[test]
fn touches_outside_end_the_process() {
    const TOUCH: &str = "BALDUQEN_TOUCH";
    const SEGMENTATION_FAULT: i32 = 11;
    if let Ok(name) = env::var(TOUCH) {
        return touch(&name);
    }
    let touched = |name: &str| {
        Command::new(env::current_exe().expect("this program"))
            .args(["--exact", "touches_outside_end_the_process"])
            .env(TOUCH, name)
            .stdout(Stdio::null())
            .stderr(Stdio::null())
            .status()
            .expect("a process of its own")
    };
    for name in ["read inside", "write inside"] {
        assert!(touched(name).success(), "{name}");
    }
    for name in [
        "read before",
        "write before",
        "read after",
        "write after",
        "read far after",
        "write what is read-only",
        "read what is empty",
    ] {
        assert_eq!(touched(name).signal(), Some(SEGMENTATION_FAULT), "{name}");
    }
}

/// Case E and the others, their plans, and random trees with random plans.
#[test]
fn good_tables() {
    let random = &mut Random::new(1201);
    for made in made() {
        let limit = made.table.limit.into();
        let answer = hand_in_all_lengths(&made.table.bytes(), &made.marks, limit);
        assert_eq!(answer, Answer::ACCEPTED);
    }
    for _ in 0..100 {
        let table = any_table(random, 30, 20);
        let tree = read(&table.bytes()).expect("an accepted table");
        let marks = feasible_plan(random, &tree);
        let answer = hand_in_all_lengths(&table.bytes(), &marks, table.limit.into());
        assert_eq!(answer, Answer::ACCEPTED);
    }
}

/// The most nodes of the archive, one more, the most of a table, and one more.
const LONG: [usize; 4] = [1024, 1025, 2048, 2049];

#[test]
fn largest_tables() {
    let random = &mut Random::new(1202);
    for (form, count) in forms_with(&LONG) {
        let table = random_table(random, form, count, 12).bytes();
        let expected = match read(&table) {
            Ok(tree) => {
                hand_to_all(&table, &feasible_plan(random, &tree), 12);
                Answer::ACCEPTED
            }
            Err(_) => Answer::refused(2, 2049),
        };
        assert_eq!(hand_in_all_lengths(&table, &ones(count), 12), expected);
    }
}

/// The longest scratch, and one that is a word short, against the guards.
#[test]
fn longest_scratch() {
    let table = random_table(&mut Random::new(1208), Form::Deep, MAX_NODES, 1024).bytes();
    let scratch = vec![7; 8_413_184];
    for kind in KINDS {
        let answer = plan(kind, &table, &ones(MAX_NODES), &scratch);
        assert!(answer.is_accepted());
        let refusal = plan(kind, &table, &ones(MAX_NODES), &scratch[1..]);
        assert_eq!(refusal, Answer::refused(9, 8_413_184));
    }
    assert_eq!(saving(&table, &ones(MAX_NODES), &scratch).number, 0);
    let refusal = saving(&table, &ones(MAX_NODES), &scratch[1..]);
    assert_eq!(refusal, Saving::refused(9, 8_413_184));
}

/// Long tables that are cut short or longer than they should be.
#[test]
fn long_tables_of_other_lengths() {
    let random = &mut Random::new(1209);
    for (form, count) in forms_with(&LONG) {
        let table = random_table(random, form, count, 3).bytes();
        for length in other_lengths(table.len()) {
            let mut other = table.clone();
            other.resize(length, 1);
            let expected = match (length, count) {
                (0, _) => Answer::refused(1, 0),
                (_, 2049) => Answer::refused(2, 2049),
                _ => Answer::refused(4, table.len()),
            };
            assert_eq!(hand_to_all(&other, &ones(count), 3), expected);
        }
    }
}

/// A tree that is too long for the archive's first edition: with outputs of any length 15, after what
/// is wrong with the plan.
#[test]
fn trees_too_long_for_the_archive() {
    for count in [1025, 2048] {
        let table = long_case_e(count).bytes();
        let plan = |marks: [u8; 6]| [&marks[..], &vec![0; count - 6]].concat();
        let right = FIRST.length(3, count);
        let short = FIRST.length(3, 1024);
        let lengths = other_lengths(right).into_iter().chain(other_lengths(short));
        for length in lengths.chain([right, short]) {
            let write = |marks: &[u8]| write_archive(FIRST, &table, marks, &vec![7; length]);
            assert_eq!(write(&plan(MARKS_OF_E)), Answer::refused(15, count));
            assert_eq!(write(&ones(count)), Answer::refused(15, count));
            assert_eq!(write(&plan([1, 0, 0, 0, 0, 0])), Answer::refused(11, 1));
            assert_eq!(write(&plan([1, 2, 0, 0, 0, 0])), Answer::refused(10, 2));
            assert_eq!(write(&ones(count - 1)), Answer::refused(8, count));
            assert_eq!(write(&[]), Answer::refused(8, count));
        }
    }
}

/// Film that would be sound in the first edition but for its more than 1,024 nodes, and in the second
/// is; there converting it gives 15.
fn archives_of_many_nodes(edition: Edition) {
    let random = &mut Random::new(1210);
    for (form, count) in forms_with(&[1025, 2048]) {
        let table = random_table(random, form, count, 60).bytes();
        let tree = read(&table).expect("an accepted table");
        for marks in [feasible_plan(random, &tree), ones(count)] {
            let archive = edition.bytes(&tree, &marks);
            let [read, converted] = match edition {
                FIRST => [Answer::refused(13, 0); 2],
                _ => [model::verdict(&tree, &marks), Answer::refused(15, count)],
            };
            hand_to_reader_in_all_lengths(edition, &archive, 1024);
            let answer = hand_to_reader_in_all_lengths(edition, &archive, count);
            assert_eq!(answer, read);
            let answer = convert(edition, &archive, &[7; 100]);
            assert_eq!(answer, converted);
        }
    }
}

/// Up to five bytes, with buffers for one node and with none.
#[test]
fn shortest_tables() {
    let mut seen = Seen::default();
    let values = [0, 1, 255];
    for length in 0..=5 {
        for mut code in 0..values.len().pow(length) {
            let mut table = vec![];
            for _ in 0..length {
                table.push(values[code % values.len()]);
                code /= values.len();
            }
            hand_to_all(&table, &[], 4);
            seen.add(hand_to_all(&table, &ones(1), 4));
        }
    }
    seen.expect(&[1, 2, 3, 4], 5);
}

/// Case E's table cut short at every length, and longer than it should be.
#[test]
fn tables_of_every_length() {
    let table = case_e().bytes();
    for length in 0..=table.len() + 20 {
        let mut bytes = table.clone();
        bytes.resize(length, 1);
        let expected = match length {
            0..=3 => Answer::refused(1, 0),
            52 => Answer::ACCEPTED,
            _ => Answer::refused(4, 52),
        };
        assert_eq!(hand_in_all_lengths(&bytes, &MARKS_OF_E, 5), expected);
    }
}

/// Counts and limits that promise more, or less, than there is.
#[test]
fn heads_of_tables() {
    let mut seen = Seen::default();
    let values = [
        0, 1, 5, 6, 7, 8, 511, 512, 1023, 1024, 1025, 2047, 2048, 2049, 32768, 65535,
    ];
    for count in values {
        for limit in values {
            let table = Table {
                count,
                limit,
                ..case_e()
            };
            seen.add(hand_to_all(&table.bytes(), &MARKS_OF_E, 5));
            // Marks and scratch as the head promises them, where a scratch can be had.
            let (count, limit) = (usize::from(count), usize::from(limit));
            if scratch_length(count, limit) < 1 << 20 {
                hand_to_all(&table.bytes(), &ones(count), limit);
            }
        }
    }
    seen.expect(&[0, 2, 3, 4, 7], 1);
}

/// Case E with every word set to values that lead elsewhere.
#[test]
fn changed_tables() {
    let table = case_e().bytes();
    for place in 0..table.len() / 2 {
        for value in [
            0u16, 1, 2, 3, 6, 7, 8, 255, 256, 1024, 1025, 2048, 2049, 65535,
        ] {
            let mut changed = table.clone();
            changed[2 * place..2 * place + 2].copy_from_slice(&value.to_be_bytes());
            hand_to_all(&changed, &MARKS_OF_E, 5);
        }
    }
}

#[test]
fn damaged_tables() {
    let random = &mut Random::new(1203);
    let mut seen = Seen::default();
    for _ in 0..2000 {
        let table = any_table(random, 12, 12);
        let damaged = damaged(random, &table);
        let count = table.records.len();
        let marks = random.bytes(count);
        seen.add(hand_to_all(&damaged, &marks, table.limit.into()));
    }
    seen.expect(&[0, 1, 2, 3, 4, 6, 7, 14], 20);
}

/// Film with labels 0 is read in the first edition, and only there; it is not converted. What is read
/// of it is refused by all other entries, and each leaves its buffers alone.
fn kept_film(edition: Edition) {
    for film in kept() {
        let archive = kept_in(edition, &film);
        let refusal = Answer::refused(14, film.unfiled);
        let [read, converted] = match edition {
            FIRST => [film.verdict, refusal],
            _ => [Answer::refused(13, 0); 2],
        };
        let answer = hand_to_reader_in_all_lengths(edition, &archive, film.marks.len());
        assert_eq!(answer, read, "{}", film.name);
        let answer = convert(edition, &archive, &[]);
        assert_eq!(answer, converted, "{}", film.name);
        let limit = word(&film.table, 1);
        let answer = hand_in_all_lengths(&film.table, &film.marks, limit);
        assert_eq!(answer, refusal, "{}", film.name);
        let answer = write_archive(edition, &film.table, &film.marks, &archive);
        assert_eq!(answer, refusal, "{}", film.name);
    }
}

/// Film from before weights of 0 is read and written again.
fn kept_filed_film(edition: Edition) {
    for film in kept_filed() {
        let archive = kept_in(edition, &film);
        let answer = hand_to_reader_in_all_lengths(edition, &archive, film.marks.len());
        assert_eq!(answer, film.verdict, "{}", film.name);
        let limit = word(&film.table, 1);
        let answer = hand_in_all_lengths(&film.table, &film.marks, limit);
        assert_eq!(answer, Answer::ACCEPTED, "{}", film.name);
    }
}

/// Notes in any place, notes only, and notes in a run that has far more nodes than the limit.
#[test]
fn tables_of_notes() {
    let random = &mut Random::new(1207);
    for (table, ..) in once_refused_tables() {
        hand_in_all_lengths(&table, &ones(word(&table, 0)), word(&table, 1));
    }
    for form in FORMS {
        let parents = random_parents(random, form, MAX_NODES);
        let table = Table::new(1, &parents, &[0; MAX_NODES]).bytes();
        let answer = hand_in_all_lengths(&table, &ones(MAX_NODES), 1);
        assert_eq!(answer, Answer::ACCEPTED);
        for edition in EDITIONS {
            let count = edition.most_nodes;
            let parents = random_parents(random, form, count);
            let table = Table::new(1, &parents, &vec![0; count]).bytes();
            let tree = read(&table).expect("an accepted table");
            let archive = edition.bytes(&tree, &ones(count));
            assert!(hand_to_reader(edition, &archive, count).is_accepted());
        }
    }
    // Of the children only the first and the last weigh something, and one run has them all.
    let parents = [&[0][..], &[1; MAX_NODES - 1]].concat();
    let mut weights = [0; MAX_NODES];
    (weights[0], weights[1], weights[MAX_NODES - 1]) = (2, 1, 1);
    let table = Table::new(2, &parents, &weights).bytes();
    let marks = [&[1, 1][..], &[2; MAX_NODES - 2]].concat();
    let answer = plan(
        Kind::Best,
        &table,
        &marks,
        &vec![7; scratch_length(MAX_NODES, 2)],
    );
    assert_eq!(answer, Answer::accepted(2, 2));
    assert_eq!(hand_to_all(&table, &marks, 2), Answer::ACCEPTED);
}

/// The longest tables with label 0 at the last node, whose record stands against the guard.
#[test]
fn largest_unfiled_tables() {
    let random = &mut Random::new(1206);
    for form in FORMS {
        let mut table = random_table(random, form, MAX_NODES, 12);
        table.records[MAX_NODES - 1].label = 0;
        let answer = hand_in_all_lengths(&table.bytes(), &ones(MAX_NODES), 12);
        assert_eq!(answer, Answer::refused(14, MAX_NODES));
    }
}

/// Marks of all values at every place of case E.
#[test]
fn changed_marks() {
    for place in 0..6 {
        for value in [0, 1, 2, 3, 255] {
            let mut marks = MARKS_OF_E;
            marks[place] = value;
            hand_in_all_lengths(&case_e().bytes(), &marks, 5);
        }
    }
}

fn good_archives(edition: Edition) {
    let random = &mut Random::new(1204);
    let answer = hand_to_reader_in_all_lengths(edition, &film_of_e(edition), 6);
    assert_eq!(answer, Answer::accepted(3, 5));
    for round in 0..200 {
        let table = any_table(random, most_nodes(edition, round, 50, 30), 60).bytes();
        let tree = read(&table).expect("an accepted table");
        for marks in [feasible_plan(random, &tree), ones(tree.node_count())] {
            let archive = edition.bytes(&tree, &marks);
            let answer = hand_to_reader_in_all_lengths(edition, &archive, marks.len());
            assert!(answer.is_accepted());
        }
    }
    for (form, count) in forms_with(&[ARCHIVE_NODES, edition.most_nodes]) {
        let table = random_table(random, form, count, 1024).bytes();
        let tree = read(&table).expect("an accepted table");
        let archive = edition.bytes(&tree, &ones(count));
        let answer = hand_to_reader(edition, &archive, count);
        assert!(answer.is_accepted());
    }
}

/// Case E's archive cut short at every length, and longer than it should be.
fn archives_of_every_length(edition: Edition) {
    let archive = film_of_e(edition);
    for length in 0..=archive.len() + 20 {
        let mut bytes = archive.clone();
        bytes.resize(length, 1);
        let is_whole = length == archive.len();
        let answer = hand_to_reader_in_all_lengths(edition, &bytes, 6);
        assert_eq!(answer.is_accepted(), is_whole);
    }
}

/// Counts, limits and page counts that promise more, or less, than there is, in front of nothing, of
/// case E's records, and of as many bytes as promised.
fn heads_of_archives(edition: Edition) {
    let values = [
        0, 1, 2, 3, 4, 6, 7, 1023, 1024, 1025, 2048, 2049, 32768, 65535,
    ];
    let head_bytes = 2 * edition.page_at(1);
    let film = film_of_e(edition);
    let mut accepted = 0;
    for nodes in values {
        for pages in values {
            for limit in [0, 5, 1024, 65535] {
                let mut head = film[..head_bytes].to_vec();
                for (field, value) in [nodes, limit, pages].into_iter().enumerate() {
                    set_word(&mut head, edition.head_at() + field, value);
                }
                let promised = edition.length(pages, nodes) - head_bytes;
                for rest in [&[], &film[head_bytes..], &vec![1; promised]] {
                    let archive = [&head, rest].concat();
                    let answer = hand_to_reader(edition, &archive, 6);
                    accepted += usize::from(answer.is_accepted());
                    hand_to_reader(edition, &archive, nodes);
                }
            }
        }
    }
    // Case E's own head, and the one with the highest limit.
    assert_eq!(accepted, 2);
}

/// Case E's archive with every word set to values that lead elsewhere.
fn changed_archives(edition: Edition) {
    let archive = film_of_e(edition);
    for place in 0..archive.len() / 2 {
        for value in [
            0, 1, 2, 3, 4, 5, 6, 7, 255, 256, 1024, 1025, 2048, 2049, 8193, 8194, 8195, 65535,
        ] {
            let mut changed = archive.clone();
            set_word(&mut changed, place, value);
            hand_to_reader(edition, &changed, 6);
        }
    }
}

fn damaged_archives(edition: Edition) {
    let random = &mut Random::new(1205);
    let mut seen = Seen::default();
    for _ in 0..3000 {
        let table = any_table(random, 12, 60).bytes();
        let tree = read(&table).expect("an accepted table");
        let marks = feasible_plan(random, &tree);
        let mut archive = edition.bytes(&tree, &marks);
        for _ in 0..random.between(1, 2) {
            archive = flipped(random, archive);
        }
        seen.add(hand_to_reader(edition, &archive, marks.len()));
    }
    seen.expect(&[0, 13], 200);
}

/// Film of the one edition is handed to the other's reader and converter.
fn archives_of_the_other_edition(edition: Edition) {
    let random = &mut Random::new(1211);
    let other = edition.other();
    for (form, count) in forms_with(&[1, 2, 100, other.most_nodes]) {
        let table = random_table(random, form, count, 60).bytes();
        let tree = read(&table).expect("an accepted table");
        for marks in [feasible_plan(random, &tree), ones(count)] {
            let answer = hand_to_reader(edition, &other.bytes(&tree, &marks), count);
            assert_eq!(answer, Answer::refused(13, 0));
        }
    }
}

tests_of_editions!(
    archives_of_many_nodes kept_film kept_filed_film good_archives archives_of_every_length
    heads_of_archives changed_archives damaged_archives archives_of_the_other_edition
);
