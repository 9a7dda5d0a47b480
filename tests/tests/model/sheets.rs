//! The leader sheets.

use balduqen_tests::cases::*;
use balduqen_tests::check::{assert_same_sheets, assert_sheets_tell};
use balduqen_tests::exhaustive::{for_each_plan, score_of_plan};
use balduqen_tests::gen::*;
use balduqen_tests::model::*;

/// The sheets of a table and a feasible plan.
fn printed(table: &[u8], marks: &[u8]) -> Vec<u8> {
    let verdict = judge(table, marks);
    assert!(verdict.is_accepted());
    let mut sheets = vec![7; sheets_length(verdict.pages as usize)];
    assert_eq!(print_sheets(table, marks, &mut sheets), verdict);
    sheets
}

/// The lines of sheets, without the blanks at their ends.
fn lines(sheets: &[u8]) -> Vec<String> {
    let text = String::from_utf8(sheets.to_vec()).expect("text");
    text.lines().map(|line| line.trim_end().into()).collect()
}

#[test]
fn lengths() {
    for (pages, sheets) in [
        (1, 1),
        (57, 1),
        (58, 1),
        (59, 2),
        (116, 2),
        (117, 3),
        (1024, 18),
        (2030, 35),
        (2031, 36),
        (2048, 36),
    ] {
        assert_eq!(sheets_length(pages), 4860 * sheets, "{pages} pages");
    }
}

#[test]
fn sheet_of_case_e() {
    assert_same_sheets(&printed(&case_e().bytes(), &MARKS_OF_E), SHEET_OF_E);
    let four = printed(&case_e().bytes(), &[1, 1, 1, 0, 0, 1]);
    let expected = [
        "PAGES      4",
        "     1     1     1     5 100",
        "     2     2     2     2  40",
        "     3     3     3     5 100",
        "     4     6     6     1  20",
        "",
    ];
    assert_eq!(lines(&four)[..6], expected);
}

/// Page 59 is on a sheet of its own, with the head of all of them.
#[test]
fn fifty_nine_pages() {
    let parents: Parents = (0..59).collect();
    let table = Table::new(9, &parents, &[4; 59]).bytes();
    let lines = lines(&printed(&table, &[1; 59]));
    assert_eq!(lines.len(), 120);
    for (index, line) in lines.iter().enumerate() {
        let expected = match index {
            0 | 60 => "PAGES     59".to_string(),
            1..=58 => format!("{index:6}{index:6}{index:6}     4  44"),
            59 => "     1".to_string(),
            61 => "    59    59    59     4  44".to_string(),
            119 => "     2".to_string(),
            _ => String::new(),
        };
        assert_eq!(*line, expected, "line {}", index + 1);
    }
}

/// Whole per cents, rounded down, told by hand.
#[test]
fn per_cents() {
    for (limit, weight, per_cent) in [
        (1, 0, "   0"),
        (1, 1, " 100"),
        (3, 0, "   0"),
        (3, 1, "  33"),
        (3, 2, "  66"),
        (3, 3, " 100"),
        (7, 6, "  85"),
        (8, 1, "  12"),
        (99, 98, "  98"),
        (100, 1, "   1"),
        (100, 99, "  99"),
        (101, 1, "   0"),
        (101, 2, "   1"),
        (200, 199, "  99"),
        (1000, 9, "   0"),
        (1000, 10, "   1"),
        (1024, 1, "   0"),
        (1024, 10, "   0"),
        (1024, 11, "   1"),
        (1024, 512, "  50"),
        (1024, 655, "  63"),
        (1024, 656, "  64"),
        (1024, 1023, "  99"),
        (1024, 1024, " 100"),
    ] {
        let table = Table::new(limit, &[0], &[weight]).bytes();
        let expected = format!("     1     1     1{weight:6}{per_cent}");
        assert_eq!(lines(&printed(&table, &[1]))[1], expected, "K {limit}");
    }
}

/// The last line of a page has the highest page, node and weight there can be.
#[test]
fn widest_numbers() {
    let parents = [&[0][..], &[1; 2047]].concat();
    let table = Table::new(1024, &parents, &[1024; 2048]).bytes();
    let lines = lines(&printed(&table, &[1; 2048]));
    assert_eq!(lines.len(), 36 * 60);
    assert_eq!(lines[35 * 60], "PAGES   2048");
    // 35 sheets have 2,030 pages, so this is page 18 of the last.
    assert_eq!(lines[35 * 60 + 18], "  2048  2048  2048  1024 100");
    assert_eq!(lines[35 * 60 + 19], "");
    assert_eq!(lines[35 * 60 + 59], "    36");
}

/// With weights from 0, and pages up to full ones.
#[test]
fn all_plans_of_small_trees() {
    let mut told = 0;
    let mut tell_all = |table: &[u8]| {
        let tree = read(table).expect("an accepted table");
        for_each_plan(&tree, |marks| {
            if score_of_plan(&tree, marks).is_some() {
                assert_sheets_tell(&printed(table, marks), &tree, marks);
                told += 1;
            }
        });
    };
    for_each_table(1..=4, &[0, 1, 3], &[3, 7], &mut tell_all);
    for_each_table(5..=5, &[0, 2], &[3, 10], &mut tell_all);
    assert!(told > 20_000, "{told}");
}

#[test]
fn random_plans() {
    let random = &mut Random::new(601);
    for round in 0..2000 {
        let most = if round % 20 == 0 { 2048 } else { 100 };
        let table = any_table(random, most, 1024).bytes();
        let tree = read(&table).expect("an accepted table");
        let marks = feasible_plan(random, &tree);
        assert_sheets_tell(&printed(&table, &marks), &tree, &marks);
    }
}

/// The judge's refusals come before 12, and all buffers are left as they were.
#[test]
fn order_of_the_refusals() {
    let table = case_e().bytes();
    let heavy = [1, 0, 0, 0, 0, 0];
    let bad = [1, 2, 0, 0, 0, 3];
    let of_table = refused_tables().into_iter().chain(faulty_tables());
    let of_table = of_table
        .filter(|&(_, number, _)| number != 0)
        .map(|(table, number, place)| (table, &MARKS_OF_E[..], number, place));
    let of_marks = [
        (table.clone(), &MARKS_OF_E[..5], 8, 6),
        (table.clone(), &bad[..], 10, 2),
        (table.clone(), &heavy[..], 11, 1),
    ];
    for (table, marks, number, place) in of_table.chain(of_marks) {
        for length in [0, 4859, 4860, 4861] {
            let mut sheets = vec![7; length];
            let answer = print_sheets(&table, marks, &mut sheets);
            assert_eq!(answer, Answer::refused(number, place));
            assert_eq!(sheets, vec![7; length]);
        }
    }
    for length in [0, 1, 81, 4779, 4859, 4861, 4941, 9720] {
        let mut sheets = vec![7; length];
        let answer = print_sheets(&table, &MARKS_OF_E, &mut sheets);
        assert_eq!(answer, Answer::refused(12, 4860));
        assert_eq!(sheets, vec![7; length]);
    }
}
