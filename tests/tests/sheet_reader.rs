//! The reader of leader sheets by their columns: it reads sound sheets and, of others, names the
//! rule that fails and where.

use balduqen_tests::cases::{case_e, MARKS_OF_E, SHEET_OF_E};
use balduqen_tests::check::assert_sheets_tell;
use balduqen_tests::gen::{Parents, Table};
use balduqen_tests::model::{read, sheets_bytes};
use balduqen_tests::sheet_reader::{Rule::*, *};

const LINE: usize = 81;
const SHEET: usize = 60 * LINE;

/// The sheets of a plan with so many pages, of one node each, which weigh 4 of 5.
fn sheets(pages: usize) -> Vec<u8> {
    let parents: Parents = (0..pages).collect();
    let table = Table::new(5, &parents, &vec![4; pages]).bytes();
    let tree = read(&table).expect("an accepted table");
    sheets_bytes(&tree, &vec![1; pages])
}

/// A sheet, a line of it and a column, all counted from 1.
type At = (usize, usize, usize);

/// The sheets without so many bytes from there on, and with these instead.
fn spliced(sheets: &[u8], (sheet, line, column): At, less: usize, more: &[u8]) -> Vec<u8> {
    let place = SHEET * (sheet - 1) + LINE * (line - 1) + column - 1;
    let changed = [&sheets[..place], more, &sheets[place + less..]].concat();
    assert_ne!(changed, sheets);
    changed
}

/// The sheets with a text there, over what it had.
fn with(sheets: &[u8], at: At, text: &str) -> Vec<u8> {
    spliced(sheets, at, text.len(), text.as_bytes())
}

/// The sheets with a whole line.
fn with_line(sheets: &[u8], sheet: usize, line: usize, text: &str) -> Vec<u8> {
    with(sheets, (sheet, line, 1), &format!("{text:<80}\n"))
}

fn fails(rule: Rule, sheet: usize, line: usize, sheets: &[u8]) {
    let failed = Failed { rule, sheet, line };
    assert_eq!(read_sheets(sheets), Err(failed));
}

/// What the sheet of case E and its best plan tells.
fn told_of_e() -> Printed {
    let page = |number, first_node, last_sibling, weight, per_cent| Page {
        number,
        first_node,
        last_sibling,
        weight,
        per_cent,
    };
    let pages = [
        page(1, 1, 1, 5, 100),
        page(2, 2, 6, 4, 80),
        page(3, 4, 5, 4, 80),
    ];
    Printed {
        count: 3,
        pages: pages.to_vec(),
        sheets: vec![1],
    }
}

#[test]
fn sheet_of_case_e() {
    assert_eq!(read_sheets(SHEET_OF_E), Ok(told_of_e()));
    let tree = read(&case_e().bytes()).expect("an accepted table");
    assert_sheets_tell(SHEET_OF_E, &tree, &MARKS_OF_E);
}

#[test]
fn sheets_of_the_model() {
    for pages in [1, 57, 58, 59, 116, 117, 1024, 1025, 2048] {
        let told = read_sheets(&sheets(pages)).expect("sound sheets");
        let page = |number| Page {
            number,
            first_node: number,
            last_sibling: number,
            weight: 4,
            per_cent: 80,
        };
        let expected = Printed {
            count: pages,
            pages: (1..=pages).map(page).collect(),
            sheets: (1..=pages.div_ceil(58)).collect(),
        };
        assert_eq!(told, expected);
    }
}

#[test]
fn lines() {
    let two = sheets(59);
    // A column less or more, in front of a number or at the end.
    fails(Columns, 1, 1, &spliced(&two, (1, 1, 6), 1, b""));
    fails(Columns, 1, 2, &spliced(&two, (1, 2, 80), 1, b""));
    fails(Columns, 1, 59, &spliced(&two, (1, 59, 1), 0, b" "));
    fails(Columns, 2, 60, &spliced(&two, (2, 60, 81), 0, b" "));
    // Other ends of a line, one that comes early, and none.
    fails(Columns, 1, 1, &spliced(&two, (1, 1, 81), 1, b"\r\n"));
    fails(Columns, 1, 3, &with(&two, (1, 3, 81), "\r"));
    fails(Columns, 1, 60, &with(&two, (1, 60, 81), " "));
    fails(Columns, 2, 1, &with(&two, (2, 1, 80), "\n"));
    fails(Columns, 2, 60, &two[..two.len() - 1]);
    fails(Columns, 1, 1, b"PAGES     59\n");
    // Lines that are not there, and one too many.
    fails(Lines, 1, 1, b"");
    fails(Lines, 2, 60, &two[..2 * SHEET - LINE]);
    fails(Lines, 2, 60, &spliced(&two, (2, 30, 1), LINE, b""));
    fails(Lines, 2, 2, &two[..SHEET + LINE]);
    fails(Lines, 3, 2, &spliced(&two, (2, 30, 1), 0, &two[..LINE]));
}

#[test]
fn heads() {
    let two = sheets(59);
    for name in ["PAGE ", "pages", "Pages", " PAGE", "     "] {
        fails(Pages, 1, 1, &with(&two, (1, 1, 1), name));
        fails(Pages, 2, 1, &with(&two, (2, 1, 1), name));
    }
    // Sheet 1 is a line short, and sheet 2 a line longer.
    let short = spliced(&two, (1, 60, 1), LINE, b"");
    let blank = &two[2 * SHEET - 2 * LINE..2 * SHEET - LINE];
    fails(Pages, 2, 1, &[&short, blank].concat());
    // At the left, in between, after zeros, not there, and no whole number.
    for number in ["59    ", "   59 ", "000059", "   059", "      ", "  59.0"] {
        fails(Number, 1, 1, &with(&two, (1, 1, 7), number));
        fails(Number, 2, 1, &with(&two, (2, 1, 7), number));
    }
    fails(Blanks, 1, 1, &with(&two, (1, 1, 6), ":"));
    fails(Blanks, 1, 1, &with(&two, (1, 1, 13), "0"));
    fails(Blanks, 2, 1, &with(&two, (2, 1, 40), "\t"));
    fails(Blanks, 2, 1, &with(&two, (2, 1, 80), "."));
}

/// P is the plan's. It is neither the number of pages on the sheet nor the last page on it.
#[test]
fn counts() {
    let two = sheets(59);
    let of_sheet = with(&two, (1, 1, 7), "    58");
    fails(SameCount, 2, 1, &of_sheet);
    fails(SameCount, 2, 1, &with(&of_sheet, (2, 1, 7), "     1"));
    let three = sheets(117);
    fails(SameCount, 3, 1, &with(&three, (3, 1, 7), "   116"));
    // Where both sheets are full, these tell the same.
    let full = sheets(116);
    let of_sheet = with(&full, (1, 1, 7), "    58");
    fails(Sheets, 2, 1, &with(&of_sheet, (2, 1, 7), "    58"));
    // A sheet that is not there, and one too many.
    fails(Sheets, 1, 1, &two[..SHEET]);
    fails(Sheets, 3, 1, &[&full[..], &full[..SHEET]].concat());
    fails(Sheets, 1, 1, &with(SHEET_OF_E, (1, 1, 7), "     0"));
    fails(Sheets, 1, 1, &with(SHEET_OF_E, (1, 1, 7), "    59"));
    fails(Sheets, 1, 1, &with(SHEET_OF_E, (1, 1, 7), "999999"));
    // A page that is not there, and one too many.
    fails(Number, 1, 5, &with(SHEET_OF_E, (1, 1, 7), "     4"));
    fails(Unused, 1, 4, &with(SHEET_OF_E, (1, 1, 7), "     2"));
}

#[test]
fn lines_of_pages() {
    let two = sheets(59);
    // Each number: at the left, in between, after zeros, with a sign, not there, and no whole one.
    for column in [1, 7, 13, 19] {
        for number in ["4     ", "   4  ", "000004", "    +4", "      ", "   4.0"] {
            fails(Number, 1, 5, &with(&two, (1, 5, column), number));
            fails(Number, 2, 2, &with(&two, (2, 2, column), number));
        }
    }
    for number in ["80  ", " 80 ", "0080", " 80%", "    ", "80.0"] {
        fails(Number, 1, 5, &with(&two, (1, 5, 25), number));
        fails(Number, 2, 2, &with(&two, (2, 2, 25), number));
    }
    // A per cent sign behind its columns, and columns that begin one too early or late.
    fails(Blanks, 1, 2, &with(&two, (1, 2, 29), "%"));
    let text = "    1     1     1     4  80";
    fails(Number, 1, 2, &with_line(&two, 1, 2, text));
    let text = "      1     1     1     4  80";
    fails(Number, 1, 2, &with_line(&two, 1, 2, text));
    let text = "     1     1     1     4   80";
    fails(Blanks, 1, 2, &with_line(&two, 1, 2, text));
    fails(Blanks, 1, 59, &with(&two, (1, 59, 50), "\0"));
    fails(Blanks, 2, 2, &with(&two, (2, 2, 80), "."));
    // From 0, anew on each sheet, one left out, one twice, and two in another order.
    fails(PageOrder, 1, 2, &with(&two, (1, 2, 1), "     0"));
    fails(PageOrder, 2, 2, &with(&two, (2, 2, 1), "     1"));
    fails(PageOrder, 1, 4, &with(&two, (1, 4, 1), "     4"));
    fails(PageOrder, 1, 4, &with(&two, (1, 4, 1), "     2"));
    let (third, fourth) = (&two[3 * LINE..4 * LINE], &two[4 * LINE..5 * LINE]);
    let turned = [fourth, third].concat();
    fails(
        PageOrder,
        1,
        4,
        &spliced(&two, (1, 4, 1), 2 * LINE, &turned),
    );
    // A blank line between pages, and after the last something else.
    fails(Number, 1, 3, &with_line(SHEET_OF_E, 1, 3, ""));
    let text = "     4     6     6     1  20";
    fails(Unused, 1, 5, &with_line(SHEET_OF_E, 1, 5, text));
    fails(Unused, 1, 9, &with_line(SHEET_OF_E, 1, 9, "     0"));
    fails(Unused, 1, 59, &with(SHEET_OF_E, (1, 59, 80), "."));
    fails(Unused, 2, 3, &with(&two, (2, 3, 6), "\0"));
}

#[test]
fn feet() {
    let two = sheets(59);
    for number in ["1     ", "   1  ", "000001", "      ", "   1.0", "   #1 "] {
        fails(Number, 1, 60, &with(&two, (1, 60, 1), number));
        fails(Number, 2, 60, &with(&two, (2, 60, 1), number));
    }
    fails(Number, 1, 60, &with_line(&two, 1, 60, "           1"));
    fails(Blanks, 1, 60, &with_line(&two, 1, 60, "     1 of 2"));
    fails(Blanks, 2, 60, &with(&two, (2, 60, 80), "2"));
    // From 0, the same again, and out of how many.
    let from_0 = with(&two, (1, 60, 1), "     0");
    fails(SheetOrder, 1, 60, &from_0);
    fails(SheetOrder, 1, 60, &with(&from_0, (2, 60, 1), "     1"));
    fails(SheetOrder, 2, 60, &with(&two, (2, 60, 1), "     1"));
    fails(SheetOrder, 1, 60, &with(&two, (1, 60, 1), "     2"));
}

/// On the line of the sheet's number, and on a line more.
#[test]
fn fifty_nine_pages_on_a_sheet() {
    let two = sheets(59);
    let last = &two[SHEET + LINE..SHEET + 2 * LINE];
    fails(Blanks, 1, 60, &spliced(&two, (1, 60, 1), LINE, last));
    let longer = spliced(&two[..SHEET], (1, 60, 1), 0, last);
    fails(Lines, 2, 2, &longer);
    // With so many lines more that there are whole sheets again.
    let blank = format!("{:80}\n", "").repeat(59);
    fails(Pages, 2, 1, &[&longer, blank.as_bytes()].concat());
}

/// No other sheet tells what case E's does, whatever one byte is set to: what is still read tells
/// something else.
#[test]
fn single_byte_changes() {
    let values = b"\0\t\n\r %+-./0123456789:APagesS\x7f\xa0\xff";
    let mut seen = vec![];
    for place in 0..SHEET {
        for &value in values.iter().filter(|&&value| value != SHEET_OF_E[place]) {
            let mut changed = SHEET_OF_E.to_vec();
            changed[place] = value;
            match read_sheets(&changed) {
                Ok(told) => assert_ne!(told, told_of_e(), "byte {place} set to {value}"),
                Err(failed) => seen.push(failed.rule),
            }
        }
    }
    seen.sort();
    seen.dedup();
    // One byte cannot make lines too few, nor two sheets differ.
    let expected = RULES
        .into_iter()
        .filter(|rule| ![Lines, SameCount].contains(rule));
    assert!(seen.iter().copied().eq(expected), "{seen:?}");
}
