//! A reader of leader sheets by their columns alone.
//!
//! It does what a person would do who has the sheets and the description of their columns, and has
//! neither tree nor plan. Nothing of the model or the library is used. The limit is not on a sheet,
//! so of a per cent it sees the columns only.

use std::fmt;

/// What must hold of sheets.
#[derive(Clone, Copy, Debug, PartialEq, Eq, PartialOrd, Ord)]
pub enum Rule {
    /// A line is 80 columns and a newline byte.
    Columns,
    /// A sheet is 60 lines.
    Lines,
    /// Line 1 begins with PAGES.
    Pages,
    /// Columns that have no name and no number are blank.
    Blanks,
    /// A number stands at the right of its columns, after blanks and without zeros in front.
    Number,
    /// P is the same on every sheet.
    SameCount,
    /// There are as many sheets as P pages take, at 58 a sheet.
    Sheets,
    /// The pages are 1, 2, .., P, a line each.
    PageOrder,
    /// The lines after the last page are blank.
    Unused,
    /// The sheets are 1, 2, ..
    SheetOrder,
}

pub const RULES: [Rule; 10] = [
    Rule::Columns,
    Rule::Lines,
    Rule::Pages,
    Rule::Blanks,
    Rule::Number,
    Rule::SameCount,
    Rule::Sheets,
    Rule::PageOrder,
    Rule::Unused,
    Rule::SheetOrder,
];

/// The first rule that fails, and where: sheet and line, both from 1.
#[derive(Clone, Copy, Debug, PartialEq, Eq)]
pub struct Failed {
    pub rule: Rule,
    pub sheet: usize,
    pub line: usize,
}

impl fmt::Display for Failed {
    fn fmt(&self, f: &mut fmt::Formatter) -> fmt::Result {
        write!(
            f,
            "{:?}, sheet {}, line {}",
            self.rule, self.sheet, self.line
        )
    }
}

/// What sheets tell.
#[derive(Clone, Debug, PartialEq, Eq)]
pub struct Printed {
    /// P, as every sheet has it.
    pub count: usize,
    pub pages: Vec<Page>,
    /// The numbers of the sheets.
    pub sheets: Vec<usize>,
}

/// The line of a page.
#[derive(Clone, Copy, Debug, PartialEq, Eq)]
pub struct Page {
    pub number: usize,
    pub first_node: usize,
    pub last_sibling: usize,
    pub weight: usize,
    pub per_cent: usize,
}

/// A line with its newline byte, and where it is.
struct Line<'a> {
    bytes: &'a [u8],
    sheet: usize,
    line: usize,
}

impl Line<'_> {
    /// With '?' it stops at once where a rule fails.
    fn check(&self, rule: Rule, holds: bool) -> Result<(), Failed> {
        let (sheet, line) = (self.sheet, self.line);
        holds.then_some(()).ok_or(Failed { rule, sheet, line })
    }

    /// From one column to another, both included, as they are counted on paper: from 1.
    fn columns(&self, first: usize, last: usize) -> &[u8] {
        &self.bytes[first - 1..last]
    }

    fn is_blank(&self, first: usize, last: usize) -> bool {
        self.columns(first, last).iter().all(|&byte| byte == b' ')
    }

    fn number(&self, first: usize, last: usize) -> Result<usize, Failed> {
        let columns = self.columns(first, last);
        let blanks = columns.iter().take_while(|&&byte| byte == b' ').count();
        let digits = &columns[blanks..];
        let is_number = match digits {
            [] => false,
            [b'0', more @ ..] => more.is_empty(),
            _ => digits.iter().all(u8::is_ascii_digit),
        };
        self.check(Rule::Number, is_number)?;
        let add = |number, &digit: &u8| 10 * number + usize::from(digit - b'0');
        Ok(digits.iter().fold(0, add))
    }
}

pub fn read_sheets(sheets: &[u8]) -> Result<Printed, Failed> {
    let lines = read_lines(sheets)?;
    let count = read_heads(&lines)?;
    let mut printed = Printed {
        count,
        pages: vec![],
        sheets: vec![],
    };
    for sheet in lines.chunks(60) {
        for line in &sheet[1..59] {
            if printed.pages.len() < count {
                let page = read_page(line)?;
                line.check(Rule::PageOrder, page.number == printed.pages.len() + 1)?;
                printed.pages.push(page);
            } else {
                line.check(Rule::Unused, line.is_blank(1, 80))?;
            }
        }
        let foot = &sheet[59];
        let number = foot.number(1, 6)?;
        foot.check(Rule::Blanks, foot.is_blank(7, 80))?;
        foot.check(Rule::SheetOrder, number == printed.sheets.len() + 1)?;
        printed.sheets.push(number);
    }
    Ok(printed)
}

/// The lines of whole sheets, one sheet or more.
fn read_lines(sheets: &[u8]) -> Result<Vec<Line<'_>>, Failed> {
    let mut lines = vec![];
    for (index, bytes) in sheets.chunks(81).enumerate() {
        let line = Line {
            bytes,
            sheet: index / 60 + 1,
            line: index % 60 + 1,
        };
        let newline = bytes.iter().position(|&byte| byte == b'\n');
        line.check(Rule::Columns, newline == Some(80))?;
        lines.push(line);
    }
    if lines.is_empty() || lines.len() % 60 != 0 {
        // At the first line that is not there.
        return Err(Failed {
            rule: Rule::Lines,
            sheet: lines.len() / 60 + 1,
            line: lines.len() % 60 + 1,
        });
    }
    Ok(lines)
}

/// P, off line 1 of every sheet.
fn read_heads(lines: &[Line]) -> Result<usize, Failed> {
    let mut counts = vec![];
    for head in lines.iter().step_by(60) {
        head.check(Rule::Pages, head.columns(1, 5) == b"PAGES")?;
        counts.push(head.number(7, 12)?);
        let blank = head.is_blank(6, 6) && head.is_blank(13, 80);
        head.check(Rule::Blanks, blank)?;
        head.check(Rule::SameCount, counts[0] == counts[counts.len() - 1])?;
    }
    let last = &lines[lines.len() - 60];
    last.check(Rule::Sheets, counts.len() == counts[0].div_ceil(58))?;
    Ok(counts[0])
}

fn read_page(line: &Line) -> Result<Page, Failed> {
    let page = Page {
        number: line.number(1, 6)?,
        first_node: line.number(7, 12)?,
        last_sibling: line.number(13, 18)?,
        weight: line.number(19, 24)?,
        per_cent: line.number(25, 28)?,
    };
    line.check(Rule::Blanks, line.is_blank(29, 80))?;
    Ok(page)
}
