//! Every command on damaged trees, marks and film: each ends with acceptance or a refusal, and which
//! of the two is what the library says.

use balduqen::{Edition, Planner};
use balduqen_tools::commands::{run, Made};
use balduqen_tools::input::{read_marks, read_tree};
use balduqen_tools::stop::Stop;
use balduqen_tools::table;
use std::fs;

const TEXT: &[u8] = include_bytes!("../samples/e.txt");
const TABLE: &[u8] = include_bytes!("../samples/e.table");
const LISTING: &[u8] = include_bytes!("../samples/e.plan");
const MARKS: [u8; 6] = [1, 1, 2, 1, 2, 2];

/// A folder of this test's own.
struct Folder(String);

impl Folder {
    fn new(name: &str) -> Folder {
        let folder = format!("{}/damaged_{name}", env!("CARGO_TARGET_TMPDIR"));
        fs::create_dir_all(&folder).expect("a folder");
        Folder(folder)
    }

    fn file(&self, name: &str, bytes: &[u8]) -> String {
        let file = format!("{}/{name}", self.0);
        fs::write(&file, bytes).expect("a file");
        file
    }
}

/// A content cut short at every length, longer, and with each byte changed in several ways.
fn for_each_damage(content: &[u8], mut look: impl FnMut(&[u8])) {
    for length in 0..content.len() {
        look(&content[..length]);
    }
    look(&[content, &[0]].concat());
    look(&[content, content].concat());
    for at in 0..content.len() {
        for byte in [
            0,
            1,
            2,
            b'0',
            b'9',
            b'\n',
            b' ',
            0x7f,
            0xff,
            content[at] ^ 1,
        ] {
            let mut damaged = content.to_vec();
            damaged[at] = byte;
            look(&damaged);
        }
    }
}

/// Whether the command accepts. It may refuse, and nothing else.
fn accepts(words: &[&str]) -> bool {
    let words: Vec<String> = words.iter().map(|word| word.to_string()).collect();
    match run(&words) {
        Ok(Made { .. }) => true,
        Err(Stop::Refused { why, .. }) => {
            assert!(why.contains(": refused"), "{why}");
            false
        }
        Err(Stop::Trouble(why)) => panic!("{words:?}: {why}"),
    }
}

/// The commands that take a tree, on a file that may be none.
fn look_at_tree(folder: &Folder, content: &[u8], seen: &mut [usize; 2]) {
    let tree = folder.file("tree", content);
    let marks = folder.file("marks", &MARKS);
    let (svg, out) = (format!("{tree}.svg"), format!("{tree}.out"));
    let table = read_tree(&tree).map(|tree| tree.table);
    let is_form = table.as_ref().is_ok_and(|table| table::read(table).is_ok());
    let is_tree = table
        .as_ref()
        .is_ok_and(|table| balduqen::read_tree(table).is_ok());
    let is_plan = table.is_ok_and(|table| balduqen::judge(&table, &MARKS).is_ok());
    seen[usize::from(is_tree)] += 1;
    for planner in Planner::ALL {
        let plan = ["plan", &tree, "--planner", planner.name(), "--svg", &svg];
        assert_eq!(accepts(&plan), is_tree);
    }
    assert_eq!(accepts(&["write", &tree, "-o", &out]), is_tree);
    assert_eq!(accepts(&["sheet", &tree]), is_tree);
    assert_eq!(accepts(&["price", &tree]), is_tree);
    assert_eq!(accepts(&["saving", &tree]), is_tree);
    assert_eq!(accepts(&["judge", &tree, &marks]), is_plan);
    let write = [
        "write",
        &tree,
        "--marks",
        &marks,
        "--edition",
        "2",
        "-o",
        &out,
    ];
    assert_eq!(accepts(&write), is_plan);
    assert_eq!(accepts(&["sheet", &tree, "--marks", &marks]), is_plan);
    assert_eq!(accepts(&["price", &tree, "--marks", &marks]), is_plan);
    assert_eq!(accepts(&["text", &tree]), is_form);
    assert_eq!(accepts(&["table", &tree]), is_form);
    accepts(&["svg", &tree, &marks]);
}

#[test]
fn damaged_tables() {
    let folder = Folder::new("tables");
    let mut seen = [0; 2];
    for_each_damage(TABLE, |table| look_at_tree(&folder, table, &mut seen));
    assert!(seen.iter().all(|&times| times > 20), "{seen:?}");
}

#[test]
fn damaged_texts() {
    let folder = Folder::new("texts");
    let mut seen = [0; 2];
    for_each_damage(TEXT, |text| look_at_tree(&folder, text, &mut seen));
    assert!(seen.iter().all(|&times| times > 20), "{seen:?}");
}

#[test]
fn damaged_marks() {
    let folder = Folder::new("marks");
    let tree = folder.file("tree", TEXT);
    let out = format!("{tree}.out");
    let sound = table::read(TABLE).expect("a tree");
    let mut seen = [0; 2];
    for content in [&MARKS[..], b"1 1 2 1 2 2\n", LISTING] {
        for_each_damage(content, |content| {
            let marks = folder.file("marks", content);
            let is_plan = match read_marks(&sound, &marks) {
                Ok(read) => balduqen::judge(TABLE, &read.marks).is_ok(),
                Err(_) => false,
            };
            seen[usize::from(is_plan)] += 1;
            assert_eq!(accepts(&["judge", &tree, &marks]), is_plan);
            assert_eq!(accepts(&["plan", &tree, "--marks", &marks]), is_plan);
            assert_eq!(accepts(&["sheet", &tree, "--marks", &marks]), is_plan);
            assert_eq!(accepts(&["price", &tree, "--marks", &marks]), is_plan);
            let write = ["write", &tree, "--marks", &marks, "-o", &out];
            assert_eq!(accepts(&write), is_plan);
            accepts(&["svg", &tree, &marks]);
        });
    }
    assert!(seen.iter().all(|&times| times > 20), "{seen:?}");
}

/// The walk by the rule sheet holds where the library reads, and nowhere else.
#[test]
fn damaged_film() {
    let folder = Folder::new("film");
    for edition in Edition::ALL {
        let archive = balduqen::write_archive(edition, TABLE, &MARKS).expect("an archive");
        let mut seen = [0; 2];
        for_each_damage(&archive, |archive| {
            let film = folder.file("film", archive);
            let out = format!("{film}.out");
            let is_film = balduqen::read_archive(archive).is_ok();
            seen[usize::from(is_film)] += 1;
            assert_eq!(accepts(&["read", &film, "-o", &out]), is_film);
            assert_eq!(accepts(&["verify", &film]), is_film);
            let converts = balduqen::convert(archive).is_ok();
            assert_eq!(accepts(&["convert", &film, "-o", &out]), converts);
            assert!(accepts(&["dump", &film]) || !is_film);
        });
        assert!(seen.iter().all(|&times| times > 20), "{edition:?} {seen:?}");
    }
}
