//! What the crate makes and refuses: case E, each cause with its place and words, and the same
//! answers as the doors give.

use balduqen::*;

const E: [u16; 26] = [
    6, 5, 5, 1, 2, 0, 2, 2, 0, 3, 1, 3, 4, 6, 2, 4, 0, 5, 2, 5, 0, 0, 1, 6, 0, 0,
];

fn bytes(words: &[u16]) -> Vec<u8> {
    words.iter().flat_map(|word| word.to_be_bytes()).collect()
}

/// Case E with another word at an index.
fn changed(index: usize, word: u16) -> Vec<u8> {
    let mut words = E;
    words[index] = word;
    bytes(&words)
}

/// A root of weight 1 with leaves of weight 1, and limit 9.
fn flat(nodes: u16) -> Vec<u8> {
    let mut words = vec![nodes, 9, 1, 1, u16::from(nodes > 1) * 2, 0];
    for node in 2..=nodes {
        words.extend([1, node, 0, if node < nodes { node + 1 } else { 0 }]);
    }
    bytes(&words)
}

fn verdict(pages: usize, root: u32) -> Verdict {
    Verdict { pages, root }
}

fn refusal(cause: Cause, place: u32) -> Refusal {
    Refusal { cause, place }
}

#[test]
fn case_e() {
    let table = bytes(&E);
    assert_eq!(read_tree(&table), Ok(()));
    let best = plan(Planner::Best, &table).expect("a plan");
    assert_eq!(best.marks, [1, 1, 2, 1, 2, 2]);
    assert_eq!(best.verdict, verdict(3, 5));
    assert_eq!(judge(&table, &best.marks), Ok(best.verdict));
    let priced = price(&table, &best.marks).expect("a price");
    assert_eq!((priced.verdict, priced.cents), (best.verdict, 578));
    let saved = saving(&table).expect("a saving");
    assert_eq!((saved.verdict, saved.saving), (best.verdict, 347));
    let sheet = include_bytes!("../../examples/case_e.sheet");
    assert_eq!(print_sheets(&table, &best.marks), Ok(sheet.to_vec()));
    for edition in Edition::ALL {
        let archive = write_archive(edition, &table, &best.marks).expect("an archive");
        assert_eq!(archive.len(), archive_length(edition, 3, 6));
        assert_eq!(Edition::of(&archive), edition);
        let film = Film {
            edition,
            table: table.clone(),
            marks: best.marks.clone(),
            verdict: best.verdict,
        };
        assert_eq!(read_archive(&archive), Ok(film));
        let other = write_archive(edition.other(), &table, &best.marks);
        assert_eq!(convert(&archive), other);
    }
}

/// The page count of each planner, and that it is the door's and the price's.
#[test]
fn planners() {
    let pages =
        |planner: Planner, table: &[u8]| plan(planner, table).expect("a plan").verdict.pages;
    let table = bytes(&E);
    let counts = Planner::ALL.map(|planner| pages(planner, &table));
    assert_eq!(counts, [3, 4, 4, 3, 4, 4]);
    for planner in Planner::ALL {
        let made = plan(planner, &table).expect("a plan");
        let (mut marks, mut scratch) = (vec![7; 6], vec![7; scratch_length(6, 5)]);
        let answer = planner.door()(&table, &mut marks, &mut scratch);
        let priced = price(&table, &marks).expect("a price");
        assert_eq!(priced.verdict, made.verdict);
        assert_eq!((answer.result(), marks), (Ok(made.verdict), made.marks));
    }
}

/// Each cause that a call can meet, and what it says. Buffers are made here with the right lengths,
/// so that 9 and 12 come from the doors only.
#[test]
fn every_refusal() {
    let said = [
        (
            read_tree(&[0, 1, 0]),
            "refused 1 at 0: the table is under 4 bytes",
        ),
        (
            read_tree(&changed(0, 2049)),
            "refused 2 at 2049: 2049 nodes, and a table has 1 to 2048",
        ),
        (
            read_tree(&changed(1, 0)),
            "refused 3 at 0: page limit 0, and it is 1 to 1024",
        ),
        (
            read_tree(&changed(0, 7)),
            "refused 4 at 60: the table has not the 60 bytes of its nodes",
        ),
        (
            read_tree(&changed(5, 2)),
            "refused 6 at 0: node 1 has a sibling",
        ),
        (
            read_tree(&changed(21, 3)),
            "refused 6 at 5: the walk goes wrong after node 5",
        ),
        (
            read_tree(&changed(10, 9)),
            "refused 7 at 3: node 3 outweighs the page limit",
        ),
        (
            judge(&bytes(&E), &[1; 5]).map(|_| ()),
            "refused 8 at 6: the marks are not 6, one for each node",
        ),
        (
            doors::plan_best(&bytes(&E), &mut [0; 6], &mut [])
                .result()
                .map(|_| ()),
            "refused 9 at 192: the scratch is under 192 words",
        ),
        (
            judge(&bytes(&E), &[1, 2, 2, 1, 2, 2]).map(|_| ()),
            "refused 10 at 2: the mark of node 2 is not allowed",
        ),
        (
            judge(&bytes(&E), &[1, 0, 0, 0, 0, 0]).map(|_| ()),
            "refused 11 at 1: page 1 weighs over the page limit",
        ),
        (
            doors::write_archive(&bytes(&E), &[1, 1, 2, 1, 2, 2], &mut [])
                .result()
                .map(|_| ()),
            "refused 12 at 78: the output has not its 78 bytes",
        ),
        (
            read_archive(&[0; 6]).map(|_| ()),
            "refused 13 at 0: no tree and plan write this archive",
        ),
        (
            read_tree(&changed(11, 0)),
            "refused 14 at 3: node 3 has label 0, a lot that nobody has filed",
        ),
        (
            write_archive(Edition::First, &flat(1025), &[1; 1025]).map(|_| ()),
            "refused 15 at 1025: 1025 nodes, and the first edition takes up to 1024",
        ),
    ];
    for (result, words) in &said {
        assert_eq!(result.expect_err(words).to_string(), *words);
    }
    let mut causes: Vec<Cause> = said.iter().map(|said| said.0.unwrap_err().cause).collect();
    causes.dedup();
    assert_eq!(causes, Cause::ALL);
}

/// What has no buffer of its own to lend is refused as what it is handed.
#[test]
fn refusals_are_handed_on() {
    let (heavy, unfiled) = (changed(10, 9), changed(11, 0));
    for planner in Planner::ALL {
        assert_eq!(plan(planner, &heavy), Err(refusal(Cause::HeavyNode, 3)));
        assert_eq!(plan(planner, &[]), Err(refusal(Cause::ShortTable, 0)));
        // A count and a limit that would ask for far more scratch than there is.
        let greedy = bytes(&[u16::MAX, u16::MAX]);
        let wanted = Err(refusal(Cause::BadCount, 65535));
        assert_eq!(plan(planner, &greedy), wanted);
    }
    assert_eq!(saving(&unfiled), Err(refusal(Cause::NoLabel, 3)));
    let over = [1, 0, 0, 0, 0, 0];
    let wanted = refusal(Cause::HeavyPage, 1);
    assert_eq!(price(&bytes(&E), &over), Err(wanted));
    assert_eq!(print_sheets(&bytes(&E), &over), Err(wanted));
    for edition in Edition::ALL {
        assert_eq!(write_archive(edition, &bytes(&E), &over), Err(wanted));
    }
}

/// Film cut short at each length, and with each byte changed: 13 or another tree, never a panic.
#[test]
fn damaged_film() {
    let table = bytes(&E);
    for edition in Edition::ALL {
        let archive = write_archive(edition, &table, &[1, 1, 2, 1, 2, 2]).expect("an archive");
        let damaged = Err(refusal(Cause::NoArchive, 0));
        for length in 0..archive.len() {
            assert_eq!(read_archive(&archive[..length]), damaged);
            assert_eq!(
                convert(&archive[..length]).map(|_| ()),
                Err(refusal(Cause::NoArchive, 0))
            );
        }
        let mut read = 0;
        for at in 0..archive.len() {
            let mut changed = archive.clone();
            changed[at] ^= 1;
            if let Ok(film) = read_archive(&changed) {
                read += 1;
                assert_eq!(film.edition, edition);
                assert_ne!(
                    (film.table, film.marks),
                    (table.clone(), vec![1, 1, 2, 1, 2, 2])
                );
            }
        }
        // The labels' two bytes each, but for 1 that would become 0 in edition 2; and the lowest bit
        // of K.
        assert!(read >= 11, "{read}");
    }
}

/// The longest tree, in edition 2 only.
#[test]
fn the_longest_tree() {
    let table = flat(2048);
    let best = plan(Planner::Best, &table).expect("a plan");
    let wanted = Err(refusal(Cause::ManyNodes, 2048));
    assert_eq!(write_archive(Edition::First, &table, &best.marks), wanted);
    let archive = write_archive(Edition::Second, &table, &best.marks).expect("an archive");
    assert_eq!(read_archive(&archive).expect("film").table, table);
    assert_eq!(convert(&archive), wanted);
}
