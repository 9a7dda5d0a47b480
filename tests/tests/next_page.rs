//! The next page in the page records of film, which request Eight has one formula for: what it is on
//! every page of every number of pages, and that all film is, byte for byte, what it was before.

use balduqen_tests::check::show;
use balduqen_tests::entries::Entries;
use balduqen_tests::exhaustive::{for_each_plan, page_weights};
use balduqen_tests::gen::{all_parents, for_each_table, Parents, Table};
use balduqen_tests::kept::{by_hand, kept, kept_filed};
use balduqen_tests::model::{read, word, Edition, EDITIONS, FIRST, SECOND};
use balduqen_tests::tests_of_both_sides;
use std::collections::BTreeSet;

/// Film of a feasible plan.
fn write(entries: &Entries, edition: Edition, table: &[u8], marks: &[u8]) -> Vec<u8> {
    let pages = marks.iter().filter(|&&mark| mark == 1).count();
    let mut film = vec![7; edition.length(pages, marks.len())];
    let answer = (entries.film(edition).write)(table, marks, &mut film);
    assert!(answer.is_accepted(), "{answer:?}: {}", show(table));
    film
}

/// A tree whose nodes all hang below node 1, one whose nodes hang below one another, and one whose
/// nodes have a leaf and a branch each.
const SHAPES: [fn(usize) -> usize; 3] = [
    |_| 1,
    |node| node - 1,
    |node| if node % 2 == 0 { node - 1 } else { node - 2 },
];

/// Of so many nodes, every other one of weight 1: they have room on one page.
fn long_table(parent_of: fn(usize) -> usize, count: usize) -> Vec<u8> {
    let parents: Parents = (1..=count)
        .map(|node| if node == 1 { 0 } else { parent_of(node) })
        .collect();
    let weights: Vec<u16> = (0..count).map(|node| (node % 2) as u16).collect();
    Table::new(1024, &parents, &weights).bytes()
}

/// Each of the first so many nodes begins a page.
fn first_nodes_cut(count: usize, pages: usize) -> Vec<u8> {
    (0..count).map(|node| u8::from(node < pages)).collect()
}

/// All pairs of a page and a number of pages: p + 1, or zero after the last, is what document 01
/// asks for, and on every page it is the formula.
fn every_page_of_every_number(entries: &Entries) {
    for edition in EDITIONS {
        for pages in 1..=edition.most_nodes {
            let table = long_table(SHAPES[0], pages);
            let film = write(entries, edition, &table, &vec![1; pages]);
            for page in 1..=pages {
                let next = word(&film, edition.page_at(page) + 3);
                let listed = if page < pages { page + 1 } else { 0 };
                assert_eq!(next, listed, "page {page} of {pages}");
                assert_eq!(next, (page + 1) % (pages + 1), "page {page} of {pages}");
            }
        }
    }
}

/// Kept film of both editions is what is written of its tree and plan. Film with labels 0 is not
/// written by an entry; that it is read shows that the reader wrote the same bytes.
fn kept_film(entries: &Entries) {
    for film in kept_filed() {
        let written = write(entries, FIRST, &film.table, &film.marks);
        assert!(written == film.archive, "{}", film.name);
    }
    for (film, second) in by_hand() {
        let written = write(entries, SECOND, &film.table, &film.marks);
        assert!(written == second, "{}", film.name);
    }
    for film in kept() {
        let (mut table, mut marks) = (vec![7; film.table.len()], vec![7; film.marks.len()]);
        let answer = (entries.film(FIRST).read)(&film.archive, &mut table, &mut marks);
        assert_eq!(answer, film.verdict, "{}", film.name);
        assert!(table == film.table && marks == film.marks, "{}", film.name);
    }
}

/// Archives, and a sum of all their bytes (FNV-1a): two lists with one sum are taken for the same.
#[derive(Clone, Copy, Debug, PartialEq, Eq)]
struct Sum {
    archives: usize,
    sum: u64,
}

impl Sum {
    const NONE: Sum = Sum::new(0, 0xcbf2_9ce4_8422_2325);

    const fn new(archives: usize, sum: u64) -> Sum {
        Sum { archives, sum }
    }

    fn add(&mut self, archive: &[u8]) {
        self.archives += 1;
        for &byte in archive {
            self.sum = (self.sum ^ u64::from(byte)).wrapping_mul(0x100_0000_01b3);
        }
    }
}

/// Adds the film of a feasible plan, by edition, where the edition takes so many nodes. Film of both
/// is converted from the one to the other, too, which writes it once more.
fn add_film(entries: &Entries, sums: &mut [Sum; 2], table: &[u8], marks: &[u8]) {
    let taken = EDITIONS
        .into_iter()
        .filter(|edition| marks.len() <= edition.most_nodes);
    let films: Vec<(Edition, Vec<u8>)> = taken
        .map(|edition| (edition, write(entries, edition, table, marks)))
        .collect();
    for (edition, film) in &films {
        sums[edition.number - 1].add(film);
    }
    if let [(_, first), (_, second)] = &films[..] {
        for (edition, from, to) in [(FIRST, first, second), (SECOND, second, first)] {
            let mut converted = vec![7; to.len()];
            let answer = (entries.film(edition).convert)(from, &mut converted);
            assert!(answer.is_accepted(), "{answer:?}: {}", show(from));
            assert!(converted == *to, "{}", show(from));
        }
    }
}

/// Film as version 0.7.1 wrote it, which had a branch for the last page: that of all plans of small
/// trees and of the plans of long trees below, by edition.
const SMALL_BEFORE: [Sum; 2] = [
    Sum::new(28_749, 0xb51a_5b33_06d4_3e5f),
    Sum::new(28_749, 0xe222_0e02_34a3_34ac),
];
const LONG_BEFORE: [Sum; 2] = [
    Sum::new(63, 0x7fc7_7d6c_2603_685d),
    Sum::new(123, 0xcbc8_5424_3ede_6866),
];

/// All plans of all trees of up to seven nodes, and all feasible plans of those of up to four nodes
/// with weights of 0, 1 and 2 and limits of 1 to 4.
fn all_plans_of_small_trees(entries: &Entries) {
    let mut sums = [Sum::NONE; 2];
    let mut add_plans = |table: &[u8]| {
        let Ok(tree) = read(table) else {
            return;
        };
        for_each_plan(&tree, |marks| {
            let weights = page_weights(&tree, marks);
            if weights.iter().all(|&weight| weight <= tree.limit) {
                add_film(entries, &mut sums, table, marks);
            }
        });
    };
    for count in 1..=7 {
        for parents in all_parents(count) {
            add_plans(&Table::new(7, &parents, &vec![1; count]).bytes());
        }
    }
    for_each_table(1..=4, &[0, 1, 2], &[1, 2, 3, 4], add_plans);
    assert_eq!(sums, SMALL_BEFORE);
}

/// One page and a page for each node, of 1,024 and 2,048 nodes among others, and 1,024 pages of
/// more nodes.
fn plans_of_long_trees(entries: &Entries) {
    let mut sums = [Sum::NONE; 2];
    for parent_of in SHAPES {
        for count in [1, 2, 3, 58, 1023, 1024, 1025, 2047, 2048] {
            let table = long_table(parent_of, count);
            let mut pages = BTreeSet::from([1, 2, count / 2, 1023, 1024, 1025, count - 1, count]);
            pages.retain(|pages| (1..=count).contains(pages));
            for pages in pages {
                add_film(entries, &mut sums, &table, &first_nodes_cut(count, pages));
            }
        }
    }
    assert_eq!(sums, LONG_BEFORE);
}

tests_of_both_sides!(
    every_page_of_every_number kept_film all_plans_of_small_trees plans_of_long_trees
);
