//! The script that looks through what is said of must-fail edits, on logs that are made up here.

use std::fs;
use std::path::Path;
use std::process::Command;

const FACT: &str = "refused, as it must be: ./proofs/read/Answers.antt:20:63: error: `returns`: expected `5`, but this is `6`";
const NOTE: &str =
    "refused, as it must be: note: src/lib.rt:4:9: it is not proved that the loop ends (`loop-i`)";
const GONE: &str = "refused, as it must be (only because a proof file names what the edit took away, so this says little of the contract: change a value and keep the names): ./proofs/read/Answers.antt:9:5: error: `add-i`: `goal.add-i`: module `Rattle.table.proofs.read.Goals` has no `add-i`";
const NAME: &str =
    "refused, as it must be: specs/Tree.antt:9:5: error: `depth`: module `Rattle.model.specs.Table` has no `level` that can be named from here";
const CUT: &str =
    "refused, as it must be: ./proofs/read/Answers.antt:9:5: error: `returns`: record `Rattle.table.proofs.read.Lts.View.";
const LIMIT: &str = "refused, as it must be (only by a limit of the prover, which gave no verdict, so this says less of the contract: choose a change that it refuses sooner): specs/Cases.antt:4:3: error: antt ran out of stack";
const NO_REASON: &str = "refused, as it must be";
const BAD: &str = "BAD EDIT: an 'old:' text is in src/lib.rt 0 times, and not once";
const UNTRIED: &str =
    "NOT TRIED: its check was killed, most likely for memory, so nothing is known of it";
const PROVED: &str = "NOT REFUSED: the crate is still proved with this edit";

/// Whether the script ends well on these edits, each with what is said of it, and what it writes.
fn look_through(name: &str, edits: &[(&str, &str)]) -> (bool, String) {
    let log = Path::new(env!("CARGO_TARGET_TMPDIR")).join(name);
    let mut text = "fn table::read: proved\nrt: table proved\n".to_string();
    text += "rt: table: trying its must-fail edits (3)\n";
    for (edit, said) in edits {
        text += &format!("rt: must-fail {edit}.edit: {said}\n");
    }
    text += "the first lines of what it said has no `x` that can be named from here\n";
    text += "rt: ok; handles allowed: none; must-fail edits: 3 refused, 1 bad\n";
    text += "4 passed, 0 failed\n";
    fs::write(&log, text).expect("a log");
    let output = Command::new("bash")
        .arg(concat!(env!("CARGO_MANIFEST_DIR"), "/must-fail-logs.sh"))
        .arg(&log)
        .output()
        .expect("the script runs");
    assert!(output.stderr.is_empty(), "{output:?}");
    let text = String::from_utf8(output.stdout).expect("text");
    (output.status.success(), text)
}

#[test]
fn edits_that_show_something() {
    let edits = [
        ("judge/fact", FACT),
        ("judge/note", NOTE),
        ("table/two_2.more", FACT),
    ];
    assert_eq!(look_through("fine", &edits), (true, String::new()));
}

#[test]
fn edits_that_show_nothing() {
    let edits = [
        ("judge/fact", FACT),
        ("judge/gone", GONE),
        ("judge/name", NAME),
        ("judge/cut", CUT),
        ("judge/note", NOTE),
        ("table/limit", LIMIT),
        ("table/no_reason", NO_REASON),
        ("table/bad", BAD),
        ("table/untried", UNTRIED),
        ("table/proved", PROVED),
    ];
    let (is_well, text) = look_through("bad", &edits);
    assert!(!is_well);
    let named: Vec<&str> = text
        .lines()
        .map(|line| line.split_once(':').expect("an edit").0)
        .collect();
    let shows = [FACT, NOTE];
    let nothing = edits.iter().filter(|edit| !shows.contains(&edit.1));
    let bad: Vec<&str> = nothing.map(|edit| edit.0).collect();
    assert_eq!(named, bad, "{text}");
    // One is enough.
    for edit in &edits {
        let is_well = look_through("one", &[("judge/fact", FACT), *edit]).0;
        assert_eq!(is_well, shows.contains(&edit.1), "{}", edit.0);
    }
}

#[test]
fn no_edits() {
    let (is_well, text) = look_through("none", &[]);
    assert!(!is_well);
    assert_eq!(text.lines().count(), 1, "{text}");
}
