//! Cases A to G of document 01, its table of refusals, and the cases of document 02.

use super::plan;
use balduqen_tests::cases::*;
use balduqen_tests::gen::{random_table, Form, Random, Table};
use balduqen_tests::model::*;

#[test]
fn plans_of_the_cases() {
    for made in made() {
        let (answer, marks) = plan(made.kind, &made.table.bytes());
        assert_eq!(marks, made.marks, "{} {:?}", made.name, made.kind);
        assert_eq!(
            answer,
            Answer::accepted(made.pages, made.root),
            "{} {:?}",
            made.name,
            made.kind
        );
    }
}

#[test]
fn tables_refused_by_every_entry() {
    let faulty = faulty_tables()
        .into_iter()
        .filter(|&(_, number, _)| number != 0);
    for (table, number, place) in refused_tables().into_iter().chain(faulty) {
        let refusal = Answer::refused(number, place);
        assert_eq!(read_tree(&table), refusal);
        assert_eq!(judge(&table, &[]), refusal);
        assert_eq!(price(&table, &[]), Price::refused(number, place));
        let (mut marks, mut scratch) = ([7; 2], [7; 2]);
        for kind in KINDS {
            assert_eq!(kind.model()(&table, &mut marks, &mut scratch), refusal);
        }
        let saving = saving(&table, &mut marks, &mut scratch);
        assert_eq!(saving, Saving::refused(number, place));
        assert_eq!((marks, scratch), ([7; 2], [7; 2]));
        for fill in [write_archive, print_sheets] {
            let mut filled = [7; 2];
            assert_eq!(fill(&table, &[], &mut filled), refusal);
            assert_eq!(filled, [7; 2]);
        }
    }
}

#[test]
fn marks_refused_by_all_that_take_a_plan() {
    let table = case_e().bytes();
    for (marks, number, place) in refused_marks() {
        let refusal = Answer::refused(number, place);
        assert_eq!(judge(&table, &marks), refusal);
        assert_eq!(price(&table, &marks), Price::refused(number, place));
        for fill in [write_archive, print_sheets] {
            let mut filled = [7; 2];
            assert_eq!(fill(&table, &marks, &mut filled), refusal);
            assert_eq!(filled, [7; 2]);
        }
    }
}

#[test]
fn planner_buffers_of_case_e() {
    let table = case_e().bytes();
    for kind in KINDS {
        for (marks_length, scratch_length, answer) in [
            (5, 191, Answer::refused(8, 6)),
            (7, 192, Answer::refused(8, 6)),
            (0, 0, Answer::refused(8, 6)),
            (6, 0, Answer::refused(9, 192)),
            (6, 191, Answer::refused(9, 192)),
        ] {
            let mut marks = vec![7; marks_length];
            let mut scratch = vec![7; scratch_length];
            assert_eq!(kind.model()(&table, &mut marks, &mut scratch), answer);
            assert!(marks.iter().all(|&mark| mark == 7));
            assert!(scratch.iter().all(|&word| word == 7));
        }
        for scratch_length in [192, 193, 500] {
            let mut marks = vec![7; 6];
            let mut scratch = vec![7; scratch_length];
            assert!(kind.model()(&table, &mut marks, &mut scratch).is_accepted());
            assert!(marks.iter().all(|&mark| mark != 7));
            assert!(scratch.iter().all(|&word| word == 0));
        }
    }
}

#[test]
fn archive_of_case_e() {
    let table = case_e().bytes();
    let accepted = Answer::accepted(3, 5);
    for length in [0, 77, 79] {
        let mut archive = vec![7; length];
        let refusal = Answer::refused(12, 78);
        assert_eq!(write_archive(&table, &MARKS_OF_E, &mut archive), refusal);
        assert_eq!(archive, vec![7; length]);
    }
    let mut archive = [7; 78];
    assert_eq!(write_archive(&table, &MARKS_OF_E, &mut archive), accepted);
    assert_eq!(archive[..], archive_of_e());

    let mut new_table = [7; 52];
    let mut marks = [7; 6];
    assert_eq!(read_archive(&archive, &mut new_table, &mut marks), accepted);
    assert_eq!((&new_table[..], marks), (&table[..], MARKS_OF_E));
}

#[test]
fn empty_archive() {
    assert_eq!(read_archive(&[], &mut [], &mut []), Answer::refused(13, 0));
}

/// Node and limit counts at their ends, with the whole of each planner.
#[test]
fn largest_tree_and_limit() {
    let random = &mut Random::new(101);
    let table = random_table(random, Form::Mixed, 2048, 1024);
    for kind in KINDS {
        assert!(plan(kind, &table.bytes()).0.is_accepted());
    }
    let longer = Table {
        count: 2049,
        records: table.records.repeat(2)[..2049].to_vec(),
        limit: 9,
    };
    assert_eq!(read_tree(&longer.bytes()), Answer::refused(2, 2049));
    let over = Table {
        limit: 1025,
        ..table
    };
    assert_eq!(read_tree(&over.bytes()), Answer::refused(3, 1025));
}
