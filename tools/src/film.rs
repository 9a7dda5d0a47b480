//! The words of an archive and what each means, as section 12 of the rule sheet shows them; and the
//! pages as film lists them.

use crate::element::counted;
use crate::rule_sheet::{comma, Edition};
use crate::tree::Tree;
use balduqen::{Refusal, ARCHIVE_NODES, MAX_NODES};

/// So many words after the last record are told.
const FOLLOWING: usize = 8;

/// A page as its record tells it.
#[derive(Clone, Copy, Debug, PartialEq, Eq)]
pub struct PageRecord {
    pub first: usize,
    pub last: usize,
    pub weight: usize,
}

/// An archive by the layout that its head tells. The bytes may be anything.
pub struct Film<'a> {
    archive: &'a [u8],
    edition: Edition,
}

impl<'a> Film<'a> {
    pub fn new(archive: &'a [u8]) -> Film<'a> {
        Film {
            archive,
            edition: crate::rule_sheet::tell_edition(archive),
        }
    }

    /// A word by its index, where there is one.
    fn word(&self, index: usize) -> Option<usize> {
        let bytes = self.archive.get(2 * index..2 * index + 2)?;
        Some(256 * usize::from(bytes[0]) + usize::from(bytes[1]))
    }

    fn head_words(&self) -> usize {
        2 + self.edition.number()
    }

    fn page_words(&self) -> usize {
        3 + self.edition.number()
    }

    /// N, K or P, counted from the end of the head, or 0 where the archive ends before it.
    fn head(&self, from_end: usize) -> usize {
        self.word(self.head_words() - from_end).unwrap_or(0)
    }

    pub fn node_count(&self) -> usize {
        self.head(3)
    }

    pub fn limit(&self) -> usize {
        self.head(2)
    }

    pub fn page_count(&self) -> usize {
        self.head(1)
    }

    /// The pages that its records list, as far as there are records.
    pub fn pages(&self) -> Vec<PageRecord> {
        let record = |page: usize| {
            let at = self.head_words() + self.page_words() * page;
            Some(PageRecord {
                first: self.word(at)?,
                last: self.word(at + 1)?,
                weight: self.word(at + 2)?,
            })
        };
        (0..self.page_count()).map_while(record).collect()
    }

    /// What the word at an index means, and the name of its record where it is the first of it.
    fn meaning(&self, index: usize, word: usize) -> (String, String) {
        let pages_at = self.head_words();
        let nodes_at = pages_at + self.page_words() * self.page_count();
        let end = nodes_at + 4 * self.node_count();
        if index < pages_at {
            return (String::new(), self.head_meaning(index, word));
        }
        if index >= end {
            return (String::new(), "after the last record".to_string());
        }
        let (name, number, field, meaning) = if index < nodes_at {
            let (number, field) = place(index - pages_at, self.page_words());
            ("page", number, field, page_meaning(field, word))
        } else {
            let (number, field) = place(index - nodes_at, 4);
            ("node", number, field, node_meaning(field, word))
        };
        let record = format!("{name} {}: ", comma(number));
        match field {
            0 => (record, meaning),
            _ => (" ".repeat(record.len()), meaning),
        }
    }

    fn head_meaning(&self, index: usize, word: usize) -> String {
        let count = |name: &str| match word {
            1 => format!("1 {name}"),
            _ => format!("{} {name}s", comma(word)),
        };
        match self.head_words() - index {
            1 => match word {
                1 => "P: there is 1 page".to_string(),
                _ => format!("P: there are {}", count("page")),
            },
            2 => format!("K: no page weighs more than {}", comma(word)),
            3 => format!("N: the tree has {}", count("node")),
            _ => "the archive is of edition 2".to_string(),
        }
    }

    /// How many words are told: those of the head and the records, as many as an archive can have, and
    /// a few that follow.
    fn told(&self) -> usize {
        let most = match self.edition {
            Edition::First => ARCHIVE_NODES,
            Edition::Two => MAX_NODES,
        };
        let pages = self.page_words() * self.page_count().min(most);
        self.head_words() + pages + 4 * self.node_count().min(most) + FOLLOWING
    }

    /// A line for each word, under the sheet's heading, and one for a last byte by itself.
    pub fn dump(&self) -> String {
        let told = self.told().min(self.archive.len().div_ceil(2));
        let width = comma((2 * told).saturating_sub(1)).len().max(2);
        let bytes = format!("{:<1$}", "Bytes", 2 * width + 2);
        let mut dump = format!("    {bytes}   Base 16 Word   Meaning\n");
        for (index, pair) in self.archive.chunks(2).take(told).enumerate() {
            let first = comma(2 * index);
            let Some(word) = self.word(index) else {
                let wide = 2 * width + 2;
                let bytes = format!("{first:>width$}");
                dump += &format!(
                    "    {bytes:<wide$}   {:02X}             half a word\n",
                    pair[0]
                );
                break;
            };
            let second = comma(2 * index + 1);
            let (record, meaning) = self.meaning(index, word);
            dump += &format!(
                "    {first:>width$}, {second:>width$}   {:02X} {:02X}{:>7}   {record}{meaning}\n",
                pair[0],
                pair[1],
                comma(word)
            );
        }
        match self.archive.len().saturating_sub(2 * told) {
            0 => dump,
            left => {
                dump + &format!(
                    "    and {} bytes more than the head can mean\n",
                    comma(left)
                )
            }
        }
    }
}

/// The record, from 1, and the field in it that a word is of.
fn place(index: usize, words: usize) -> (usize, usize) {
    (index / words + 1, index % words)
}

fn page_meaning(field: usize, word: usize) -> String {
    let number = comma(word);
    match field {
        0 => format!("the first node of its run is node {number}"),
        1 => format!("the last sibling of its run is node {number}"),
        2 => format!("its weight is {number}"),
        3 if word == 0 => "there is no next page".to_string(),
        3 => format!("the next page is page {number}"),
        _ => format!("its node count is {number}"),
    }
}

fn node_meaning(field: usize, word: usize) -> String {
    let number = comma(word);
    match field {
        0 => format!("its weight is {number}"),
        1 => format!("its label is {number}"),
        2 if word == 0 => "it has no parent".to_string(),
        2 => format!("its parent is node {number}"),
        _ if word == 0 => "there is no next node on its page".to_string(),
        _ => format!("the next node on its page is node {number}"),
    }
}

/// The edition in words.
pub fn edition(edition: balduqen::Edition) -> String {
    format!("edition {}", edition.number())
}

/// What 'read' says of film beside its pages.
pub fn told(of: balduqen::Edition, nodes: usize, pages: usize) -> String {
    let length = balduqen::archive_length(of, pages, nodes);
    let nodes = counted(nodes, "node");
    format!("{}, {nodes}, {length} bytes", edition(of))
}

/// What it says of labels 0, which film from before they were refused can have; with a line end.
pub fn told_of_labels(tree: &Tree) -> String {
    let is_unfiled = |number: &usize| tree.node(*number).label == 0;
    let unfiled: Vec<usize> = tree.numbers().filter(is_unfiled).collect();
    match unfiled[..] {
        [] => String::new(),
        [node] => format!("node {node} has {UNFILED}\n"),
        [node, ..] => format!(
            "{} nodes, from {node} on, have {ALL_UNFILED}\n",
            unfiled.len()
        ),
    }
}

const UNFILED: &str = "label 0, a lot that nobody had filed";
const ALL_UNFILED: &str = "label 0, lots that nobody had filed";

/// Whether a line says that of some film.
pub fn is_of_labels(line: &str) -> bool {
    let words: Vec<&str> = line.split_whitespace().collect();
    match words[..] {
        ["node", _, "has", ref rest @ ..] => rest.join(" ") == UNFILED,
        [_, "nodes,", "from", _, "on,", "have", ref rest @ ..] => rest.join(" ") == ALL_UNFILED,
        _ => false,
    }
}

/// The verdict and the pages that an archive lists, as the page program writes them.
pub fn listing(archive: &[u8]) -> String {
    let film = Film::new(archive);
    let pages = film.pages();
    let root = pages.first().map_or(0, |page| page.weight);
    let mut text = format!("pages {} root {root} limit {}\n", pages.len(), film.limit());
    for (page, number) in pages.iter().zip(1..) {
        let PageRecord {
            first,
            last,
            weight,
        } = page;
        text += &format!("page {number} first {first} last {last} weight {weight}\n");
    }
    text
}

/// The same of a plan: its film in edition 2, which every feasible plan has, lists them.
pub fn listing_of_plan(table: &[u8], marks: &[u8]) -> Result<String, Refusal> {
    let archive = balduqen::write_archive(balduqen::Edition::Second, table, marks)?;
    Ok(listing(&archive))
}

#[cfg(test)]
mod tests {
    use super::*;

    const SHEET: &str = include_str!("../../docs/RULE-SHEET.txt");

    /// The lines of a section of the rule sheet that tell words of an archive.
    fn told(section: &str) -> String {
        let (_, rest) = SHEET.split_once(section).expect("the section");
        let lines = rest
            .lines()
            .skip_while(|line| !line.starts_with("    Bytes"));
        let table = lines.take_while(|line| !line.trim().is_empty());
        table.map(|line| format!("{line}\n")).collect()
    }

    fn film(edition: balduqen::Edition) -> Vec<u8> {
        let table = include_bytes!("../samples/e.table");
        balduqen::write_archive(edition, table, &[1, 1, 2, 1, 2, 2]).expect("an archive")
    }

    #[test]
    fn case_e_as_the_sheet_shows_it() {
        let first = Film::new(&film(balduqen::Edition::First)).dump();
        assert_eq!(first, told("12. EXAMPLE: THE BYTES"));
        assert_eq!(first.lines().count(), 1 + 39);
        let second = Film::new(&film(balduqen::Edition::Second)).dump();
        // The sheet leaves the node records out: they are those of section 12.
        let pages = told("19. EXAMPLE OF EDITION 2: THE BYTES");
        assert!(second.starts_with(&pages), "{second}");
        assert_eq!(pages.lines().count(), 1 + 19);
        let nodes = |dump: &str| -> Vec<String> {
            let from = dump.lines().skip_while(|line| !line.contains("node 1: "));
            from.map(|line| line[12..].to_string()).collect()
        };
        assert_eq!(nodes(&second), nodes(&first));
    }

    #[test]
    fn case_e_listed() {
        let plan = include_str!("../samples/e.plan");
        for edition in balduqen::Edition::ALL {
            assert_eq!(listing(&film(edition)), plan);
        }
    }

    /// Bytes that are no archive have their words told as far as there are any.
    #[test]
    fn damaged() {
        let archive = film(balduqen::Edition::First);
        for length in 0..=archive.len() {
            let dump = Film::new(&archive[..length]).dump();
            assert_eq!(dump.lines().count(), 1 + length.div_ceil(2));
            assert_eq!(dump.contains("half a word"), length % 2 == 1);
        }
        let longer = [&archive[..], &[0, 9]].concat();
        let dump = Film::new(&longer).dump();
        assert!(dump.ends_with("78, 79   00 09      9   after the last record\n"));
    }

    /// No more is told than the head can mean, whatever it says and however much follows.
    #[test]
    fn far_too_long() {
        let archive = film(balduqen::Edition::First);
        let longer = [&archive[..], &[0; 1 << 20]].concat();
        let dump = Film::new(&longer).dump();
        assert_eq!(dump.lines().count(), 1 + 39 + FOLLOWING + 1);
        let left = comma((1 << 20) - 2 * FOLLOWING);
        assert!(dump.ends_with(&format!(
            "    and {left} bytes more than the head can mean\n"
        )));
        let most = Film::new(&[0xff; 70000]).dump();
        assert_eq!(
            most.lines().count(),
            1 + 3 + 8 * ARCHIVE_NODES + FOLLOWING + 1
        );
        let second = [&[0x20, 0x02][..], &[0xff; 70000]].concat();
        let most = Film::new(&second).dump();
        assert_eq!(most.lines().count(), 1 + 4 + 9 * MAX_NODES + FOLLOWING + 1);
    }
}
