//! The leader sheets of a plan in plain Rust, with all that the library's entry does: the tree is
//! read and checked, the plan is judged, and every byte of the sheets is written.

use crate::planner::{accepted, Answer};
use crate::tree::{Page, Tree};

const LINE: usize = 81;
const SHEET: usize = 60 * LINE;
const PAGES_OF_SHEET: usize = 58;

/// Table, marks, sheets.
pub type Printer = fn(&[u8], &[u8], &mut [u8]) -> Answer;

/// The bytes of the sheets of so many pages.
pub fn sheets_bytes(pages: usize) -> usize {
    SHEET * pages.div_ceil(PAGES_OF_SHEET)
}

pub fn print(table: &[u8], marks: &[u8], sheets: &mut [u8]) -> Answer {
    let tree = match Tree::read(table) {
        Ok(tree) => tree,
        Err(refusal) => return refusal,
    };
    if marks.len() != tree.count() {
        return Answer::refused(8, tree.count());
    }
    let pages = tree.pages(marks);
    let length = sheets_bytes(pages.len());
    if sheets.len() != length {
        return Answer::refused(12, length);
    }
    sheets.fill(b' ');
    let on_sheets = pages.chunks(PAGES_OF_SHEET);
    for (index, (sheet, on_it)) in sheets.chunks_exact_mut(SHEET).zip(on_sheets).enumerate() {
        put(&mut sheet[6..12], pages.len());
        sheet[..5].copy_from_slice(b"PAGES");
        let first = index * PAGES_OF_SHEET + 1;
        let lines = sheet.chunks_exact_mut(LINE).skip(1);
        for (line, (number, page)) in lines.zip((first..).zip(on_it)) {
            put_page(line, number, page, tree.limit);
        }
        put(&mut sheet[59 * LINE..][..6], index + 1);
        for line in sheet.chunks_exact_mut(LINE) {
            line[LINE - 1] = b'\n';
        }
    }
    accepted(&pages)
}

fn put_page(line: &mut [u8], number: usize, page: &Page, limit: usize) {
    let weight = page.weight as usize;
    put(&mut line[..6], number);
    put(&mut line[6..12], page.first as usize);
    put(&mut line[12..18], page.last as usize);
    put(&mut line[18..24], weight);
    put(&mut line[24..28], 100 * weight / limit);
}

/// Puts a number at the right of a field of blanks.
fn put(field: &mut [u8], mut number: usize) {
    for byte in field.iter_mut().rev() {
        *byte = b'0' + (number % 10) as u8;
        number /= 10;
        if number == 0 {
            break;
        }
    }
}
