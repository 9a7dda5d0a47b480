//! Plans case E, writes its archive, reads it back, converts it to edition 2 and back, prints the
//! first lines of its leader sheet, and prices it: examples/case_e.c in Rust, with the same output.
//!
//!     cargo run --release --offline --example case_e

use balduqen::{
    convert, plan, price, print_sheets, read_archive, saving, write_archive, Edition, Planner,
    Refusal,
};

/// N and K, then weight, label, first child and next sibling of each node.
const WORDS: [u16; 26] = [
    6, 5, //
    5, 1, 2, 0, //
    2, 2, 0, 3, //
    1, 3, 4, 6, //
    2, 4, 0, 5, //
    2, 5, 0, 0, //
    1, 6, 0, 0, //
];

/// A word of an archive, by its index.
fn word(archive: &[u8], index: usize) -> u16 {
    u16::from_be_bytes([archive[2 * index], archive[2 * index + 1]])
}

/// N, K and P, then first node, last sibling, weight and next page of each page.
fn list_pages(archive: &[u8]) {
    let [limit, pages, root] = [1, 2, 5].map(|index| word(archive, index));
    println!("pages {pages} root {root} limit {limit}");
    for page in 1..=usize::from(pages) {
        let [first, last, weight] = [0, 1, 2].map(|at| word(archive, 4 * page - 1 + at));
        println!("page {page} first {first} last {last} weight {weight}");
    }
}

fn same(name: &str, is_same: bool) {
    println!(
        "{name} back: {}",
        if is_same { "same" } else { "different" }
    );
}

fn main() -> Result<(), Refusal> {
    let table: Vec<u8> = WORDS.into_iter().flat_map(u16::to_be_bytes).collect();
    let best = plan(Planner::Best, &table)?;

    let archive = write_archive(Edition::First, &table, &best.marks)?;
    list_pages(&archive);
    let film = read_archive(&archive)?;
    same("table read", film.table == table);
    same("marks read", film.marks == best.marks);

    let second = convert(&archive)?;
    print!(
        "edition 2 begins with {}, nodes of each page:",
        word(&second, 0)
    );
    for page in 0..best.verdict.pages {
        print!(" {}", word(&second, 4 + 5 * page + 4));
    }
    println!();
    same("archive converted", convert(&second)? == archive);

    let sheets = String::from_utf8(print_sheets(&table, &best.marks)?).expect("a sheet is text");
    for line in sheets.lines().take(1 + best.verdict.pages) {
        println!("{line}");
    }
    let (priced, saved) = (price(&table, &best.marks)?, saving(&table)?);
    println!("price {} saving {}", priced.cents, saved.saving);
    Ok(())
}
