//! Several threads call the library at the same time, each on buffers of its own, and get what the
//! model gives.

use balduqen_tests::cases::KINDS;
use balduqen_tests::entries::{Entries, LIBRARY, MODEL};
use balduqen_tests::gen::{any_table, Random};
use balduqen_tests::model::{scratch_length, sheets_length, word, Answer, Price, Saving, EDITIONS};
use std::thread;

/// What all entries do with a table, in turn.
#[derive(Debug, PartialEq)]
struct Round {
    answers: Vec<Answer>,
    /// The marks, archives and sheets of each planner's plan.
    buffers: Vec<Vec<u8>>,
    prices: Vec<Price>,
    saving: Saving,
}

fn round(entries: &Entries, table: &[u8]) -> Round {
    let (count, limit) = (word(table, 0), word(table, 1));
    let mut answers = vec![(entries.read_tree)(table)];
    let (mut buffers, mut prices) = (vec![], vec![]);
    for kind in KINDS {
        let mut marks = vec![7; count];
        let mut scratch = vec![7; scratch_length(count, limit)];
        let planned = (entries.planner)(kind)(table, &mut marks, &mut scratch);
        let pages = planned.pages as usize;
        for edition in EDITIONS {
            let film = entries.film(edition);
            let mut archive = vec![7; edition.length(pages, count)];
            let (mut table_back, mut marks_back) = (vec![7; table.len()], vec![7; count]);
            let mut converted = vec![7; edition.other().length(pages, count)];
            answers.extend([
                (film.write)(table, &marks, &mut archive),
                (film.read)(&archive, &mut table_back, &mut marks_back),
                (film.convert)(&archive, &mut converted),
            ]);
            buffers.extend([archive, table_back, marks_back, converted]);
        }
        let mut sheets = vec![7; sheets_length(pages)];
        answers.extend([
            planned,
            (entries.judge)(table, &marks),
            (entries.print_sheets)(table, &marks, &mut sheets),
        ]);
        prices.push((entries.price)(table, &marks));
        buffers.extend([marks, sheets]);
    }
    let mut marks = vec![7; count];
    let mut scratch = vec![7; scratch_length(count, limit)];
    let saving = (entries.saving)(table, &mut marks, &mut scratch);
    buffers.push(marks);
    Round {
        answers,
        buffers,
        prices,
        saving,
    }
}

#[test]
fn each_on_its_own_buffers() {
    thread::scope(|threads| {
        for seed in 1201..1205 {
            threads.spawn(move || {
                let random = &mut Random::new(seed);
                for _ in 0..150 {
                    let table = any_table(random, 60, 60).bytes();
                    let round_of_library = round(&LIBRARY, &table);
                    let mut answers = round_of_library.answers.iter();
                    assert!(answers.all(Answer::is_accepted), "{round_of_library:?}");
                    assert_eq!(round_of_library, round(&MODEL, &table));
                }
            });
        }
    });
}
