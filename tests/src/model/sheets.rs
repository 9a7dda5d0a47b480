//! The leader sheets of a plan (request Four): the judge's refusals, then 12.

use super::{judge, pages, read, Answer, Tree};

/// On each sheet, between its first line and its last.
const PAGES_OF_SHEET: usize = 58;

/// The bytes of the sheets of a plan with so many pages: 60 lines a sheet, each of 80 columns and a
/// newline.
pub fn sheets_length(pages: usize) -> usize {
    let full = pages / PAGES_OF_SHEET;
    let begun = usize::from(pages % PAGES_OF_SHEET != 0);
    (full + begun) * 60 * (80 + 1)
}

/// The sheets of a tree and a plan with allowed marks, also where a page is over the limit.
pub fn sheets_bytes(tree: &Tree, marks: &[u8]) -> Vec<u8> {
    let pages = pages(tree, marks);
    let mut lines = vec![];
    for (index, _) in pages.iter().enumerate().step_by(PAGES_OF_SHEET) {
        lines.push(format!("PAGES {:>6}", pages.len()));
        for number in index + 1..=index + PAGES_OF_SHEET {
            lines.push(match pages.get(number - 1) {
                Some(page) => format!(
                    "{number:>6}{:>6}{:>6}{:>6}{:>4}",
                    page.first,
                    page.last,
                    page.weight,
                    100 * page.weight / tree.limit
                ),
                None => String::new(),
            });
        }
        lines.push(format!("{:>6}", index / PAGES_OF_SHEET + 1));
    }
    let whole = lines.iter().map(|line| format!("{line:<80}\n"));
    whole.collect::<String>().into_bytes()
}

pub fn print_sheets(table: &[u8], marks: &[u8], sheets: &mut [u8]) -> Answer {
    let answer = judge(table, marks);
    if !answer.is_accepted() {
        return answer;
    }
    let length = sheets_length(answer.pages as usize);
    if sheets.len() != length {
        return Answer::refused(12, length);
    }
    let tree = read(table).expect("the judge accepts the tree");
    sheets.copy_from_slice(&sheets_bytes(&tree, marks));
    answer
}
