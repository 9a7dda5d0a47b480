//! How much stack the library's entries use, against the most that include/balduqen.h gives. No entry
//! calls itself, so that the frames of a call are the same for every tree; the trees here have the
//! most nodes, of a table or of the archive's first edition, and every form.

#![allow(
    unused_must_use,
    reason = "a call here is a check, which has looked at the answer that it gives back"
)]

use balduqen_tests::cases::KINDS;
use balduqen_tests::entries::LIBRARY;
use balduqen_tests::gen::*;
use balduqen_tests::model::{
    scratch_length, sheets_length, Answer, Edition, ARCHIVE_NODES, EDITIONS, FIRST, MAX_NODES,
};
use balduqen_tests::stack::stack_used;
use std::hint::black_box;

const HEADER: &str = include_str!("../../include/balduqen.h");

/// The number after a name that the header defines.
fn defined(name: &str) -> usize {
    let mut lines = HEADER.lines();
    let line = lines.find_map(|line| line.strip_prefix("#define ")?.strip_prefix(name));
    let number = line.expect(name).trim();
    number.parse().expect(number)
}

/// What the writer and the reader of the archive's first edition used while tables had no more nodes
/// than that: longer tables and the second edition must cost them nothing, since film decks size their
/// memory by its 1,024 nodes.
const WRITER_BEFORE: usize = 43_576;
const READER_BEFORE: usize = 77_400;

/// The answer of a call, after a look at its stack.
fn within_stack(what: &str, call: impl FnMut() -> Answer) -> Answer {
    within(defined("BALDUQEN_STACK"), what, call)
}

fn within(most: usize, what: &str, mut call: impl FnMut() -> Answer) -> Answer {
    let mut answer = Answer::refused(1, 0);
    let used = stack_used(&mut || answer = call());
    assert!(used <= most, "{what}: {used} bytes, at most {most}");
    answer
}

/// The most that the writer and the reader of an edition may use.
fn most_of(edition: Edition) -> [usize; 2] {
    match edition {
        FIRST => [WRITER_BEFORE, READER_BEFORE],
        _ => [defined("BALDUQEN_STACK"); 2],
    }
}

/// The same of a call that must be an acceptance.
fn accepted_within_stack(what: &str, call: impl FnMut() -> Answer) -> Answer {
    let answer = within_stack(what, call);
    assert!(answer.is_accepted(), "{what}: {answer:?}");
    answer
}

/// Plans a tree with so many nodes, judges, prints and prices it. Gives the marks and the verdict.
fn all_but_the_archive(table: &[u8], count: usize, limit: usize) -> (Vec<u8>, Answer) {
    let mut marks = vec![0; count];
    let mut scratch = vec![0; scratch_length(count, limit)];
    accepted_within_stack("read tree", || (LIBRARY.read_tree)(table));
    for kind in KINDS {
        let planner = (LIBRARY.planner)(kind);
        accepted_within_stack("plan", || planner(table, &mut marks, &mut scratch));
    }
    let saving = LIBRARY.saving;
    accepted_within_stack("save", || saving(table, &mut marks, &mut scratch).answer());
    let judged = accepted_within_stack("judge", || (LIBRARY.judge)(table, &marks));
    let mut sheets = vec![0; sheets_length(judged.pages as usize)];
    let print = LIBRARY.print_sheets;
    accepted_within_stack("print", || print(table, &marks, &mut sheets));
    accepted_within_stack("price", || (LIBRARY.price)(table, &marks).answer());
    (marks, judged)
}

/// Writes, reads and converts film of an edition; of the second, what is too long for the first gets
/// as far as 15.
fn all_of_the_archive(edition: Edition, table: &[u8], marks: &[u8], judged: Answer) {
    let (pages, count) = (judged.pages as usize, marks.len());
    let film = LIBRARY.film(edition);
    let [of_writer, of_reader] = most_of(edition);
    let mut archive = vec![0; edition.length(pages, count)];
    let written = within(of_writer, "write", || {
        (film.write)(table, marks, &mut archive)
    });
    if count > edition.most_nodes {
        assert_eq!(written, Answer::refused(15, count));
        return;
    }
    assert_eq!(written, judged);
    let (mut table_back, mut marks_back) = (vec![0; table.len()], vec![0; count]);
    let read = within(of_reader, "read", || {
        (film.read)(&archive, &mut table_back, &mut marks_back)
    });
    assert_eq!(read, judged);
    let mut out = vec![0; edition.other().length(pages, count)];
    let converted = within_stack("convert", || (film.convert)(&archive, &mut out));
    let is_long = count > edition.other().most_nodes;
    assert_eq!(converted.number, if is_long { 15 } else { 0 });
}

#[test]
fn every_entry() {
    let mut random = Random::new(90);
    for (form, count) in forms_with(&[MAX_NODES, ARCHIVE_NODES]) {
        for limit in [7, 300] {
            let table = random_table(&mut random, form, count, limit).bytes();
            let (marks, judged) = all_but_the_archive(&table, count, limit);
            for edition in EDITIONS {
                all_of_the_archive(edition, &table, &marks, judged);
            }
        }
    }
}

/// A call that is known to use some: the measure sees it.
#[test]
fn measure() {
    #[inline(never)]
    fn use_some() {
        black_box(&mut [black_box(7u8); 50_000]);
    }
    let used = stack_used(&mut use_some);
    assert!((50_000..60_000).contains(&used), "{used}");
}
