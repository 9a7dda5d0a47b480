//! Helpers for checks.

use crate::exhaustive::{page_weights, runs_of_plan};
use crate::model::{Answer, Tree};
use crate::sheet_reader::read_sheets;
use std::collections::BTreeMap;
use std::hint::black_box;

/// Counts the answers by number, so that a test can show that its inputs reach what they should.
#[derive(Default)]
pub struct Seen(BTreeMap<u32, usize>);

/// The number that nothing gives any more: it refused a weight of 0.
pub const RETIRED: u32 = 5;

impl Seen {
    pub fn add(&mut self, answer: Answer) {
        self.add_number(answer.number);
    }

    pub fn add_number(&mut self, number: u32) {
        assert_ne!(number, RETIRED);
        *self.0.entry(number).or_default() += 1;
    }

    /// Each of these numbers came at least so many times, and no other came.
    pub fn expect(&self, numbers: &[u32], least: usize) {
        assert_eq!(
            self.0.keys().copied().collect::<Vec<u32>>(),
            numbers,
            "{:?}",
            self.0
        );
        assert!(self.0.values().all(|&times| times >= least), "{:?}", self.0);
    }
}

/// The first bytes in base 16, for messages.
pub fn show(bytes: &[u8]) -> String {
    let shown: Vec<String> = bytes
        .iter()
        .take(200)
        .map(|byte| format!("{byte:02x}"))
        .collect();
    format!("{} bytes: {}", bytes.len(), shown.join(" "))
}

/// The first node of a table whose label is 0.
pub fn first_unfiled(table: &[u8]) -> Option<usize> {
    let mut records = table[4..].chunks(8);
    let index = records.position(|record| record[2..4] == [0, 0])?;
    Some(index + 1)
}

/// Sets each label 0 to 1, in the records of a table or in the node records of an archive.
pub fn file_all(records: &mut [u8]) {
    for record in records.chunks_exact_mut(8) {
        if record[2..4] == [0, 0] {
            record[3] = 1;
        }
    }
}

/// A test of one edition of the archive as a test of each.
#[macro_export]
macro_rules! tests_of_editions {
    ($($test:ident)*) => {
        mod first {
            $(
                #[test]
                fn $test() {
                    super::$test(balduqen_tests::model::FIRST);
                }
            )*
        }

        mod second {
            $(
                #[test]
                fn $test() {
                    super::$test(balduqen_tests::model::SECOND);
                }
            )*
        }
    };
}

/// A test of the entries of one side as a test of the model's and of the library's.
#[macro_export]
macro_rules! tests_of_both_sides {
    ($($test:ident)*) => {
        mod of_model {
            $(
                #[test]
                fn $test() {
                    super::$test(&balduqen_tests::entries::MODEL);
                }
            )*
        }

        mod of_library {
            $(
                #[test]
                fn $test() {
                    super::$test(&balduqen_tests::entries::LIBRARY);
                }
            )*
        }
    };
}

/// Makes a call with a copy of the input and looks at it afterwards. The black box keeps the
/// compiler from taking it for granted that the copy is unchanged.
pub fn with_copy<T>(input: &[u8], call: impl FnOnce(&[u8]) -> T) -> T {
    let copy = input.to_vec();
    let result = call(black_box(&copy));
    assert!(
        *black_box(&copy) == input,
        "an input was written: {}",
        show(input)
    );
    result
}

/// Panics at the first line in which sheets are not as they should be.
pub fn assert_same_sheets(sheets: &[u8], expected: &[u8]) {
    let text = String::from_utf8_lossy;
    for (index, (line, expected)) in sheets.chunks(81).zip(expected.chunks(81)).enumerate() {
        let (sheet, number) = (index / 60 + 1, index % 60 + 1);
        let (is, should_be) = (text(line), text(expected));
        assert!(
            line == expected,
            "sheet {sheet}, line {number} is {is:?} and should be {should_be:?}"
        );
    }
    assert_eq!(sheets.len(), expected.len());
}

/// Panics unless the sheets, read by their columns alone, tell the pages of this plan. What these
/// are is taken from the exhaustive search, which has its own way to find them.
pub fn assert_sheets_tell(sheets: &[u8], tree: &Tree, marks: &[u8]) {
    let printed = read_sheets(sheets).unwrap_or_else(|failed| panic!("{failed}: {tree:?}"));
    let (runs, weights) = (runs_of_plan(tree, marks), page_weights(tree, marks));
    assert_eq!(printed.count, runs.len(), "{tree:?} {marks:?}");
    assert_eq!(printed.pages.len(), runs.len(), "{tree:?} {marks:?}");
    let limit = tree.limit as usize;
    for (page, (run, weight)) in printed.pages.iter().zip(runs.into_iter().zip(weights)) {
        let told = (page.first_node, page.last_sibling);
        assert_eq!(told, run, "{page:?}: {tree:?} {marks:?}");
        assert_eq!(page.weight, weight as usize, "{page:?}: {tree:?} {marks:?}");
        // So many hundredths of the limit are in the weight, and one more is not.
        let whole = page.per_cent * limit..(page.per_cent + 1) * limit;
        assert!(whole.contains(&(100 * page.weight)), "{page:?}, K {limit}");
    }
}

/// A lent buffer with a margin on both sides that a callee must leave alone.
pub struct Lent<T> {
    all: Vec<T>,
    length: usize,
    margin: T,
}

const MARGIN: usize = 8;

impl<T: Copy + PartialEq> Lent<T> {
    pub fn new(content: &[T], margin: T) -> Lent<T> {
        let mut all = vec![margin; MARGIN];
        all.extend(content);
        all.extend([margin; MARGIN]);
        Lent {
            all,
            length: content.len(),
            margin,
        }
    }

    pub fn slice(&mut self) -> &mut [T] {
        &mut self.all[MARGIN..MARGIN + self.length]
    }

    /// What the buffer holds, after a look at the margins.
    pub fn content(&self) -> &[T] {
        let (before, rest) = self.all.split_at(MARGIN);
        let (content, after) = rest.split_at(self.length);
        let whole = before.iter().chain(after).all(|&word| word == self.margin);
        assert!(whole, "the margin of a lent buffer was written");
        content
    }
}
