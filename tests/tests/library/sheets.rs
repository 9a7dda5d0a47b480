//! The leader sheets of the library.

use balduqen::doors;
use balduqen_tests::cases::*;
use balduqen_tests::check::*;
use balduqen_tests::exhaustive::for_each_plan;
use balduqen_tests::gen::*;
use balduqen_tests::model::{self, judge, read, scratch_length, sheets_length, word, Answer};
use balduqen_tests::sheet_reader::read_sheets;

/// The library's answer and sheets, checked against the model's, and the sheets by their columns,
/// too. The buffer holds these bytes on entry.
fn print_sheets(table: &[u8], marks: &[u8], on_entry: &[u8]) -> (Answer, Vec<u8>) {
    let mut model_sheets = on_entry.to_vec();
    let model_answer = model::print_sheets(table, marks, &mut model_sheets);
    let mut lent = Lent::new(on_entry, 0xa5);
    let answer = with_copy(table, |table| {
        with_copy(marks, |marks| {
            doors::print_sheets(table, marks, lent.slice())
        })
    });
    assert_eq!(answer, model_answer, "{}; {}", show(table), show(marks));
    let sheets = lent.content();
    if answer.is_accepted() {
        assert_same_sheets(sheets, &model_sheets);
        let tree = read(table).expect("an accepted table");
        assert_sheets_tell(sheets, &tree, marks);
    } else {
        assert!(sheets == on_entry, "{answer:?}: {}", show(table));
    }
    (answer, sheets.to_vec())
}

/// Bytes with no two neighbours alike, so that what is moved or set shows.
fn pattern(length: usize) -> Vec<u8> {
    (0..length).map(|place| (place * 167) as u8).collect()
}

/// The length that the sheets of these should have; some length, where they are refused.
fn right_length(table: &[u8], marks: &[u8]) -> usize {
    sheets_length(judge(table, marks).pages.max(1) as usize)
}

/// None, and a byte, two, a line and a sheet less and more.
fn other_lengths(length: usize) -> [usize; 9] {
    let (line, sheet) = (81, 4860);
    [
        0,
        length - 2,
        length - 1,
        length + 1,
        length + 2,
        length - line,
        length + line,
        length - sheet,
        length + sheet,
    ]
}

/// Prints a feasible plan into a buffer of the right length, and into others, which are kept.
fn print_in_all_lengths(table: &[u8], marks: &[u8]) -> (Answer, Vec<u8>) {
    let length = right_length(table, marks);
    for other in other_lengths(length) {
        let refusal = print_sheets(table, marks, &pattern(other)).0;
        assert_eq!(refusal, Answer::refused(12, length));
    }
    let (answer, sheets) = print_sheets(table, marks, &pattern(length));
    assert!(answer.is_accepted(), "{answer:?}: {}", show(table));
    (answer, sheets)
}

#[test]
fn case_e_and_its_plan() {
    let table = case_e().bytes();
    let (answer, sheets) = print_sheets(&table, &MARKS_OF_E, &pattern(4860));
    assert_eq!(answer, Answer::accepted(3, 5));
    assert_same_sheets(&sheets, SHEET_OF_E);
    for length in (0..=200).chain(4700..=5000).chain(9640..=9800) {
        let answer = print_sheets(&table, &MARKS_OF_E, &pattern(length)).0;
        let refusal = Answer::refused(12, 4860);
        assert_eq!(answer == refusal, length != 4860);
    }
}

/// The plans that are told by hand, of all planners.
#[test]
fn cases() {
    for made in made() {
        let answer = print_in_all_lengths(&made.table.bytes(), &made.marks).0;
        let expected = Answer::accepted(made.pages, made.root);
        assert_eq!(answer, expected, "{}", made.name);
    }
}

/// Case E with a fault for any selection of the numbers 1 to 4, 6 to 8, 10, 11, 12 and 14: 12 comes
/// last, and what is refused is refused whatever the buffer's length.
#[test]
fn order_of_the_checks() {
    for (table, marks, judged) in faulty_plans() {
        let refusal = match judged.number {
            0 => Answer::refused(12, 4860),
            _ => judged,
        };
        for length in other_lengths(4860) {
            assert_eq!(print_sheets(&table, &marks, &pattern(length)).0, refusal);
        }
        assert_eq!(print_sheets(&table, &marks, &pattern(4860)).0, judged);
    }
    // The archive's most nodes are none to the sheets.
    for (table, marks, judged) in faulty_long_plans(2048) {
        let refusal = match judged.number {
            0 => Answer::refused(12, 4860),
            _ => judged,
        };
        assert_eq!(print_sheets(&table, &marks, &pattern(4859)).0, refusal);
        assert_eq!(print_sheets(&table, &marks, &pattern(4860)).0, judged);
    }
    for (table, number, place) in refused_tables() {
        for length in [0, 4860] {
            let answer = print_sheets(&table, &[], &pattern(length)).0;
            assert_eq!(answer, Answer::refused(number, place));
        }
    }
    // Trees that were refused while a weight of 0 was are printed, if nothing else is wrong.
    for (table, marks, expected) in once_refused_plans() {
        assert_eq!(print_sheets(&table, &marks, &pattern(4860)).0, expected);
    }
}

/// 11 comes before 12, for each page of three sheets as the heavy one.
#[test]
fn heavy_pages() {
    for heavy in 1..=117 {
        // A page for each of 117 nodes, and a child that stays with one of them.
        let mut parents = [&[0][..], &[1; 116]].concat();
        parents.insert(heavy, heavy);
        let mut marks = vec![1; 118];
        marks[heavy] = 0;
        let table = Table::new(3, &parents, &[2; 118]).bytes();
        for sheets in 0..=4 {
            for length in [4860 * sheets, 4860 * sheets + 1] {
                let answer = print_sheets(&table, &marks, &pattern(length)).0;
                assert_eq!(answer, Answer::refused(11, heavy));
            }
        }
    }
}

#[test]
fn all_marks_of_small_trees() {
    let mut seen = Seen::default();
    let mut print_all = |table: &[u8]| {
        for_each_marks(word(table, 0), |marks| {
            let length = right_length(table, marks);
            for length in [length, length - 1, length + 81] {
                seen.add(print_sheets(table, marks, &pattern(length)).0);
            }
        });
    };
    for_each_table(1..=4, &[0, 1, 2], &[1, 3], &mut print_all);
    seen.expect(&[0, 7, 10, 11, 12], 500);
}

/// Feasible or not, with weights that are a third of the limit, and two.
#[test]
fn all_plans_of_small_trees() {
    let mut seen = Seen::default();
    for_each_table(5..=5, &[0, 1, 2], &[3], |table| {
        let tree = read(table).expect("an accepted table");
        for_each_plan(&tree, |marks| {
            seen.add(print_sheets(table, marks, &pattern(4860)).0);
        });
    });
    seen.expect(&[0, 11], 1000);
}

/// All labels of 0 and 1, with weights of 0 and over the limit.
#[test]
fn all_labels_of_small_trees() {
    let mut seen = Seen::default();
    for_each_table(1..=3, &[0, 1, 2, 4], &[3], |table| {
        for_each_labelling(table, |table| {
            for_each_marks(word(table, 0), |marks| {
                let length = right_length(table, marks);
                for length in [length, length - 1] {
                    seen.add(print_sheets(table, marks, &pattern(length)).0);
                }
            });
        });
    });
    seen.expect(&[0, 7, 10, 11, 12, 14], 20);
}

/// Around the ends of sheets: of trees that are light enough for every plan.
#[test]
fn plans_of_so_many_pages() {
    let random = &mut Random::new(1001);
    let short = [1, 57, 58, 59, 115, 116, 117, 174, 175, 986, 987, 1023, 1024];
    let long = [1, 58, 59, 1024, 1025, 1972, 1973, 2030, 2031, 2047, 2048];
    let sizes = short.map(|pages| (pages, 1024)).into_iter();
    let sizes: Vec<_> = sizes.chain(long.map(|pages| (pages, 2048))).collect();
    for form in FORMS {
        for &(pages, nodes) in &sizes {
            let parents = random_parents(random, form, nodes);
            // At most 1,024 in all.
            let choices = if nodes <= 1024 {
                [0, 1, 1, 1]
            } else {
                [0, 0, 0, 1]
            };
            let weights: Vec<u16> = (0..nodes).map(|_| random.pick(&choices)).collect();
            let table = Table::new(1024, &parents, &weights).with_random_labels(random);
            let tree = read(&table.bytes()).expect("an accepted table");
            let marks = plan_of_pages(random, &tree, pages);
            let answer = print_in_all_lengths(&table.bytes(), &marks).0;
            assert_eq!(answer.pages as usize, pages);
        }
    }
}

/// Every number of pages that a plan can have.
#[test]
fn every_number_of_pages() {
    let random = &mut Random::new(1002);
    let parents = random_parents(random, Form::Mixed, 2048);
    // 1,024 in all.
    let weights: Vec<u16> = (0..2048).map(|node| node % 2).collect();
    let table = Table::new(1024, &parents, &weights).bytes();
    let tree = read(&table).expect("an accepted table");
    for pages in 1..=2048 {
        let marks = plan_of_pages(random, &tree, pages);
        let answer = print_sheets(&table, &marks, &pattern(sheets_length(pages))).0;
        assert_eq!(answer.pages as usize, pages);
    }
}

/// The per cent of every weight under every limit, each on a page by itself, and with it every page
/// and node number, up to the widest ones.
#[test]
fn every_weight_of_every_limit() {
    let mut full = 0;
    for limit in 1..=1024u16 {
        let all: Vec<u16> = (0..=limit).rev().collect();
        for weights in all.chunks(1024) {
            let parents = [&[0][..], &vec![1; weights.len() - 1]].concat();
            let table = Table::new(limit, &parents, weights).bytes();
            let marks = vec![1; weights.len()];
            let on_entry = pattern(sheets_length(marks.len()));
            let (answer, sheets) = print_sheets(&table, &marks, &on_entry);
            assert_eq!(answer, Answer::accepted(marks.len(), weights[0].into()));
            let told = read_sheets(&sheets).expect("sound sheets").pages;
            full += told.iter().filter(|page| page.per_cent == 100).count();
        }
    }
    // Only the weight that is the limit.
    assert_eq!(full, 1024);
}

/// The highest page, node and weight on one line, and runs up to the last node.
#[test]
fn widest_numbers() {
    let parents = [&[0][..], &[1; 2047]].concat();
    let table = Table::new(1024, &parents, &[1024; 2048]).bytes();
    let (_, sheets) = print_in_all_lengths(&table, &[1; 2048]);
    assert_eq!(sheets.len(), 36 * 4860);
    assert_eq!(&sheets[35 * 4860..][..12], b"PAGES   2048");
    // 35 sheets have 2,030 pages, so this is page 18 of the last.
    let last = &sheets[81 * (35 * 60 + 18)..][..28];
    assert_eq!(last, b"  2048  2048  2048  1024 100");
    assert_eq!(&sheets[81 * (36 * 60 - 1)..][..6], b"    36");
    // Every second child weighs 1, from the third on.
    let weights: Vec<u16> = (0..2048)
        .map(|node| u16::from(node % 2 == 1 && node > 1))
        .collect();
    let table = Table::new(1024, &parents, &weights).bytes();
    let marks = [&[1, 1][..], &[2; 2046]].concat();
    let (_, sheets) = print_in_all_lengths(&table, &marks);
    assert_eq!(&sheets[2 * 81..][..28], b"     2     2  2048  1023  99");
}

/// Notes alone, and notes beside others: pages that weigh nothing are 0 per cent.
#[test]
fn pages_of_weight_0() {
    let random = &mut Random::new(1003);
    for form in FORMS {
        for limit in [1, 3, 1024] {
            for notes in [1, 2] {
                let parents = random_parents(random, form, 150);
                let weights: Vec<u16> = (0..150).map(|node| (node % notes) as u16).collect();
                let table = Table::new(limit, &parents, &weights).bytes();
                let tree = read(&table).expect("an accepted table");
                print_in_all_lengths(&table, &feasible_plan(random, &tree));
                let (_, sheets) = print_in_all_lengths(&table, &[1; 150]);
                let told = read_sheets(&sheets).expect("sound sheets").pages;
                let light = told
                    .iter()
                    .filter(|page| (page.weight, page.per_cent) == (0, 0));
                assert_eq!(light.count(), 150 / notes);
            }
        }
    }
}

#[test]
fn plans_of_all_planners() {
    let random = &mut Random::new(1004);
    for kind in KINDS {
        for form in FORMS {
            for (count, limit) in [(1, 1), (60, 9), (300, 5), (1024, 2), (1025, 9), (2048, 100)] {
                let table = random_table(random, form, count, limit).bytes();
                let mut marks = vec![7; count];
                let mut scratch = vec![7; scratch_length(count, limit)];
                let planned = kind.library()(&table, &mut marks, &mut scratch);
                let printed = print_in_all_lengths(&table, &marks).0;
                assert_eq!(printed, planned, "{kind:?} {form:?}");
            }
        }
    }
}

#[test]
fn random_plans() {
    let random = &mut Random::new(1005);
    let mut seen = Seen::default();
    for round in 0..5000 {
        let most = if round % 50 == 0 { 2048 } else { 150 };
        let limit = random.pick(&[3, 60, 1024]);
        let table = any_table(random, most, limit).bytes();
        let tree = read(&table).expect("an accepted table");
        let marks = any_plan(random, &tree);
        let length = right_length(&table, &marks);
        let length = random.pick(&[length, length, length - 1, length + 81, length + 4860]);
        let on_entry = random.bytes(length);
        seen.add(print_sheets(&table, &marks, &on_entry).0);
    }
    seen.expect(&[0, 11, 12], 300);
}

/// What the buffer holds before is of no matter, be it other sheets, or digits in every column.
#[test]
fn printed_over_anything() {
    let random = &mut Random::new(1006);
    let parents = random_parents(random, Form::Mixed, 130);
    let table = Table::new(130, &parents, &[1; 130]).bytes();
    let tree = read(&table).expect("an accepted table");
    let ones = print_sheets(&table, &[1; 130], &pattern(sheets_length(130))).1;
    for pages in [1, 58, 59, 116, 117, 130] {
        let marks = plan_of_pages(random, &tree, pages);
        let length = sheets_length(pages);
        let printed = print_sheets(&table, &marks, &pattern(length)).1;
        let mut others = vec![
            ones[..length].to_vec(),
            printed.clone(),
            random.bytes(length),
        ];
        others.extend([0, b'\n', b' ', b'0', b'9', 255].map(|byte| vec![byte; length]));
        for on_entry in others {
            let (answer, sheets) = print_sheets(&table, &marks, &on_entry);
            assert!(answer.is_accepted());
            assert_same_sheets(&sheets, &printed);
        }
    }
}

#[test]
fn damaged_tables() {
    let random = &mut Random::new(1007);
    let mut seen = Seen::default();
    for _ in 0..10000 {
        let table = any_table(random, 12, 12);
        let damaged = damaged(random, &table);
        let count = table.records.len() + random.pick(&[0, 0, 0, 1]);
        let marks = vec![random.pick(&[1, 1, 1, 0]); count];
        let length = random.pick(&[4860, 4860, 0, 4859]);
        let on_entry = random.bytes(length);
        seen.add(print_sheets(&damaged, &marks, &on_entry).0);
    }
    seen.expect(&[0, 1, 2, 3, 4, 6, 7, 8, 10, 12, 14], 50);
}
