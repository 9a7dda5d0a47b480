//! Files read, as far as a bound, and what they hold told apart.

use crate::plan;
use crate::stop::Stop;
use crate::table;
use crate::text;
use crate::tree::Tree;
use std::fs::File;
use std::io::{self, Read};

/// More than the longest tree has as a text: 2,048 nodes one below the other, with their indents.
pub const MOST_BYTES: usize = 16 << 20;

/// The bytes of a file, or of standard input for '-'.
fn read_file(file: &str) -> Result<Vec<u8>, Stop> {
    let trouble = |error: io::Error| Stop::of_file(file, &error);
    let mut bytes = vec![];
    let bound = MOST_BYTES as u64 + 1;
    let read = match file {
        "-" => io::stdin().take(bound).read_to_end(&mut bytes),
        _ => {
            let opened = File::open(file).map_err(trouble)?;
            opened.take(bound).read_to_end(&mut bytes)
        }
    };
    read.map_err(trouble)?;
    if bytes.len() > MOST_BYTES {
        let fault = format!("over {MOST_BYTES} bytes, and no more are read");
        return Err(Stop::bad_form(
            file,
            fault,
            "No tree, plan or film is that long.",
        ));
    }
    Ok(bytes)
}

/// What a file holds, as far as its bytes tell.
#[derive(Debug, PartialEq, Eq)]
pub enum Content {
    Text(String),
    /// A text that cannot be read, and why.
    Spoiled(String),
    /// A table, marks or film, or nothing of ours.
    Bytes,
}

/// Every table that the library accepts begins with a control sign, since N is at most 2048, and so
/// does every plan of bytes. Bytes that are no sign turn into signs that are no number, and are found
/// line by line.
pub fn content(bytes: &[u8]) -> Content {
    match bytes {
        // Byte-order marks of signs of two bytes. No table begins like this.
        [0xff, 0xfe, signs @ ..] => whole(pairs(signs, u16::from_le_bytes)),
        [0xfe, 0xff, signs @ ..] => whole(pairs(signs, u16::from_be_bytes)),
        _ if is_text(bytes) => Content::Text(String::from_utf8_lossy(bytes).into_owned()),
        _ => match spoiled(bytes) {
            Some(fault) => Content::Spoiled(fault),
            None => Content::Bytes,
        },
    }
}

/// Whether there is no control sign, and bytes that are no sign at all are the fewest.
fn is_text(bytes: &[u8]) -> bool {
    let ascii = bytes.iter().filter(|byte| byte.is_ascii()).count();
    let has_signs = std::str::from_utf8(bytes).is_ok() || 2 * ascii >= bytes.len();
    !bytes.is_empty() && has_signs && !bytes.iter().any(is_control)
}

fn is_control(byte: &u8) -> bool {
    byte.is_ascii_control() && !byte.is_ascii_whitespace()
}

/// A text that says itself that it is one, and so is spoiled by any control sign.
fn whole(text: String) -> Content {
    match control_sign(text.as_bytes()) {
        Some(fault) => Content::Spoiled(fault),
        None => Content::Text(text),
    }
}

/// The first control sign, and its line.
fn control_sign(text: &[u8]) -> Option<String> {
    let at = text.iter().position(is_control)?;
    let line = 1 + text[..at].iter().filter(|&&byte| byte == b'\n').count();
    let byte = text[at];
    Some(format!(
        "line {line}: a byte {byte}, which is no sign of a text"
    ))
}

/// What stands for a sign that is none.
const HALF: u16 = 0xfffd;

/// Signs of two bytes. Half a sign at the end is one that is no number.
fn pairs(bytes: &[u8], word: fn([u8; 2]) -> u16) -> String {
    let words = bytes.chunks(2);
    let words = words.map(|pair| match *pair {
        [first, second] => word([first, second]),
        _ => HALF,
    });
    String::from_utf16_lossy(&words.collect::<Vec<u16>>())
}

/// What spoils a text: signs of two bytes that do not say in which order, or a few control signs.
fn spoiled(bytes: &[u8]) -> Option<String> {
    let orders = [u16::from_le_bytes, u16::from_be_bytes];
    if orders.into_iter().any(|word| is_signs(bytes, word)) {
        let fault = "a text in signs of two bytes without a byte-order mark; save it as UTF-8";
        return Some(fault.to_string());
    }
    let controls = bytes.iter().filter(|byte| is_control(byte)).count();
    let is_text = std::str::from_utf8(bytes).is_ok() && 8 * controls <= bytes.len();
    // What begins with a control sign can be a table or marks.
    match is_text && !bytes.first().is_none_or(is_control) {
        true => control_sign(bytes),
        false => None,
    }
}

/// Whether the bytes begin with signs of two bytes, as many as 'limit' has. No tree's table and no
/// film does: each has 0, 1 or 2 among its first five words.
fn is_signs(bytes: &[u8], word: fn([u8; 2]) -> u16) -> bool {
    const LEAST: usize = 5;
    let is_sign = |pair: &[u8]| match u8::try_from(word([pair[0], pair[1]])) {
        Ok(sign) => sign.is_ascii() && !is_control(&sign),
        Err(_) => false,
    };
    let signs = bytes.chunks_exact(2);
    signs.len() >= LEAST && signs.take(LEAST).all(is_sign)
}

/// A tree as a file has it: its table and, where it is a text, the lines of the limit and the nodes.
pub struct TreeFile {
    pub name: String,
    pub table: Vec<u8>,
    pub lines: Option<text::Lines>,
}

/// The tree of a file, which has it as a table or as an indented text.
pub fn read_tree(file: &str) -> Result<TreeFile, Stop> {
    let bytes = read_file(file)?;
    let bad_form = |fault| Stop::bad_form(file, fault, text::FORM);
    let (table, lines) = match content(&bytes) {
        Content::Bytes => (bytes, None),
        Content::Spoiled(fault) => return Err(bad_form(fault)),
        Content::Text(text) => {
            let text = text::read(&text).map_err(bad_form)?;
            (table::write(&text.tree), Some(text.lines))
        }
    };
    let name = file.to_string();
    Ok(TreeFile { name, table, lines })
}

/// Marks as a file has them and, where it is a text, the line of each.
pub struct MarksFile {
    pub name: String,
    pub marks: Vec<u8>,
    pub lines: Vec<usize>,
}

/// The marks that a file tells for a tree.
pub fn read_marks(tree: &Tree, file: &str) -> Result<MarksFile, Stop> {
    let bytes = read_file(file)?;
    let bad_form = |fault| Stop::bad_form(file, fault, plan::FORM);
    let (marks, lines) = match content(&bytes) {
        Content::Bytes => (bytes, vec![]),
        Content::Spoiled(fault) => return Err(bad_form(fault)),
        Content::Text(text) => plan::read_marks(tree, &text).map_err(bad_form)?,
    };
    let name = file.to_string();
    Ok(MarksFile { name, marks, lines })
}

/// An archive as a file has it, which may be anything.
pub struct FilmFile {
    pub name: String,
    pub archive: Vec<u8>,
}

pub fn read_film(file: &str) -> Result<FilmFile, Stop> {
    Ok(FilmFile {
        name: file.to_string(),
        archive: read_file(file)?,
    })
}

#[cfg(test)]
mod tests {
    use super::*;
    use crate::tree::tests::random_tree;
    use balduqen::Edition;

    const TABLE: &[u8] = include_bytes!("../samples/e.table");

    fn text(bytes: &[u8]) -> Option<String> {
        match content(bytes) {
            Content::Text(text) => Some(text),
            _ => None,
        }
    }

    fn fault(bytes: &[u8]) -> String {
        match content(bytes) {
            Content::Spoiled(fault) => fault,
            other => panic!("{other:?}"),
        }
    }

    #[test]
    fn texts_and_tables() {
        assert_eq!(text(b"limit 5"), Some("limit 5".to_string()));
        assert!(text(b"limit 5\r\n1\t1\n").is_some());
        assert!(text("\u{feff}limit 5".as_bytes()).is_some());
        assert!(text(b"  \xff 1\n").is_some());
        assert!(text(b"1 1 2\n").is_some());
        for bytes in [&[], &[1, 1, 2][..], &[0, 6, 0, 5], &[255; 9], TABLE] {
            assert_eq!(content(bytes), Content::Bytes);
        }
        // The first byte of a table is at most 8.
        for first in 0..=8 {
            assert_eq!(content(&[first, b'1', b' ', b'1']), Content::Bytes);
        }
    }

    #[test]
    fn signs_of_two_bytes() {
        let signs: Vec<u16> = "\u{feff}limit 5\n".encode_utf16().collect();
        let low: Vec<u8> = signs.iter().flat_map(|sign| sign.to_le_bytes()).collect();
        let high: Vec<u8> = signs.iter().flat_map(|sign| sign.to_be_bytes()).collect();
        for bytes in [low, high] {
            assert_eq!(text(&bytes), Some("limit 5\n".to_string()));
            // Half a sign is one that is no number.
            assert!(text(&bytes[..bytes.len() - 1]).is_some());
            assert_eq!(text(&bytes[..2]), Some(String::new()));
            let unmarked =
                "a text in signs of two bytes without a byte-order mark; save it as UTF-8";
            assert_eq!(fault(&bytes[2..]), unmarked);
        }
    }

    #[test]
    fn spoiled_texts() {
        let nul = "line 3: a byte 0, which is no sign of a text";
        assert_eq!(fault(b"limit 5\n5 1\n  2\0 2\n"), nul);
        assert_eq!(
            fault(b"limit 5\x1b\n"),
            "line 1: a byte 27, which is no sign of a text"
        );
        // Signs of four bytes, as their mark is read.
        let four = b"\xff\xfe\0\0l\0\0\0";
        assert_eq!(fault(four), "line 1: a byte 0, which is no sign of a text");
        // Bytes of which many are control signs, or that are no signs at all.
        assert_eq!(content(b"ELF\0\0\x01\x01\x02"), Content::Bytes);
        assert_eq!(content(b"limit 5 \xff\xff\xff \0"), Content::Bytes);
    }

    /// No tree's table, no plan of bytes and no film is taken for a text, whatever its numbers.
    #[test]
    fn nothing_of_ours_is_a_text() {
        for seed in 0..300 {
            let tree = random_tree(seed, 1 + 7 * seed as usize);
            let marks = vec![1; tree.count()];
            assert_eq!(content(&marks), Content::Bytes);
            let table = table::write(&tree);
            assert_eq!(content(&table), Content::Bytes);
            for edition in Edition::ALL {
                if let Ok(film) = balduqen::write_archive(edition, &table, &marks) {
                    assert_eq!(content(&film), Content::Bytes);
                }
            }
        }
    }
}
