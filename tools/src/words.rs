//! Refusals in words: number and place as the page program writes them, what was found there, and
//! on a second line what to do.

use crate::element::counted;
use crate::input::{content, Content, FilmFile, MarksFile, TreeFile};
use crate::plan::Plan;
use crate::rule_sheet;
use crate::stop::{name, Stop};
use crate::table;
use crate::text;
use balduqen::{Cause, Refusal, ARCHIVE_NODES, MAX_LIMIT, MAX_NODES};

const MARKS: &str =
    "0 stays with its parent, 1 begins a run, 2 continues that of the sibling just before.";
const NEITHER: &str = "These bytes are neither a table nor film.";
const UNSOUND: &str =
    "Section 11 of docs/RULE-SHEET.txt tells what to do with film that is not sound.";

/// What a refused call was lent: the files that it came from.
#[derive(Clone, Copy, Default)]
pub struct Lent<'a> {
    pub tree: Option<&'a TreeFile>,
    pub marks: Option<&'a MarksFile>,
    pub film: Option<&'a FilmFile>,
}

impl Lent<'_> {
    pub fn stop(&self, refusal: Refusal) -> Stop {
        Stop::refused(self.say(refusal))
    }

    /// The refusal with the file that it is of, the line where there is one, what stands at its place,
    /// and what to do.
    pub fn say(&self, refusal: Refusal) -> String {
        let Refusal { cause, place } = refusal;
        let number = cause.number();
        let (file, line) = self.blamed(cause, place as usize);
        let line = line.map_or(String::new(), |line| format!("line {line}: "));
        let (found, advice) = self.found(refusal);
        format!("{file}: refused {number} at {place}: {line}{found}\n    {advice}")
    }

    /// The file that a refusal is of and, where it is a text, the line.
    fn blamed(&self, cause: Cause, place: usize) -> (String, Option<usize>) {
        let at = |lines: &[usize]| place.checked_sub(1).and_then(|at| lines.get(at).copied());
        let is_of_marks = [Cause::BadMarks, Cause::BadMark, Cause::HeavyPage].contains(&cause);
        match (self.marks, self.tree, self.film) {
            (Some(marks), ..) if is_of_marks => {
                let line = match cause {
                    Cause::BadMark => at(&marks.lines),
                    _ => None,
                };
                (name(&marks.name), line)
            }
            (_, Some(tree), _) => {
                let line = tree.lines.as_ref().and_then(|lines| match cause {
                    Cause::BadLimit => Some(lines.limit),
                    Cause::HeavyNode | Cause::NoLabel => at(&lines.nodes),
                    _ => None,
                });
                (name(&tree.name), line)
            }
            (_, None, film) => (film.map_or(String::new(), |film| name(&film.name)), None),
        }
    }

    fn table(&self) -> &[u8] {
        self.tree.map_or(&[], |tree| &tree.table)
    }

    fn marks(&self) -> &[u8] {
        self.marks.map_or(&[], |marks| &marks.marks)
    }

    fn archive(&self) -> &[u8] {
        self.film.map_or(&[], |film| &film.archive)
    }

    fn found(&self, refusal: Refusal) -> (String, String) {
        let place = refusal.place as usize;
        match refusal.cause {
            Cause::HeavyNode => self.heavy_node(place),
            Cause::NoLabel => self.no_label(place),
            Cause::BadMarks => self.bad_marks(place),
            Cause::BadMark => (self.plan().err().unwrap_or_default(), MARKS.to_string()),
            Cause::HeavyPage => self.heavy_page(place),
            Cause::NoArchive => self.no_archive(),
            Cause::ManyNodes => self.many_nodes(place),
            Cause::ShortTable
            | Cause::BadCount
            | Cause::BadLimit
            | Cause::BadLength
            | Cause::BadWalk => (self.form(), self.form_advice(refusal.cause)),
            // Buffers are made with the right lengths, and the library's numbers are in its list.
            _ => (
                in_words(refusal),
                "This is a fault of the program.".to_string(),
            ),
        }
    }

    fn bad_marks(&self, nodes: usize) -> (String, String) {
        let marks = self.marks();
        let advice = if balduqen::read_archive(marks).is_ok() {
            "This is film: 'balduqen read' with '--marks-out FILE' writes its marks."
        } else if table::read(marks).is_ok() {
            "This is a tree as a table."
        } else if marks.iter().any(|mark| *mark > 2) {
            "These bytes are no marks: each would be 0, 1 or 2."
        } else {
            "Give one mark for each node, in the order of the nodes."
        };
        let (marks, nodes) = (counted(marks.len(), "mark"), counted(nodes, "node"));
        (format!("{marks} for a tree of {nodes}"), advice.to_string())
    }

    fn no_label(&self, node: usize) -> (String, String) {
        let advice = match self.film {
            None => format!("File the lot, and give node {node} its label."),
            Some(_) => "This film has to stay of the first edition.".to_string(),
        };
        let found = format!("node {node} has label 0, a lot that nobody has filed");
        (found, advice)
    }

    fn many_nodes(&self, nodes: usize) -> (String, String) {
        let advice = match self.film {
            None => "Write edition 2: --edition 2.",
            Some(_) => "This film has to stay of edition 2.",
        };
        let found = format!("{nodes} nodes, and the first edition takes up to {ARCHIVE_NODES}");
        (found, advice.to_string())
    }

    /// What keeps the bytes from being a table, whatever the weights and labels.
    fn form(&self) -> String {
        table::read(self.table()).err().unwrap_or_default()
    }

    fn form_advice(&self, cause: Cause) -> String {
        let table = self.table();
        if balduqen::read_archive(table).is_ok() {
            return "This is film, and no tree: 'balduqen read' reads it.".to_string();
        }
        let is_table = table.len() == balduqen::table_length(self.word(0));
        match cause {
            Cause::BadCount | Cause::BadLimit if !is_table => NEITHER.to_string(),
            Cause::BadCount if self.word(0) > MAX_NODES => "Divide the tree.".to_string(),
            Cause::BadCount => "A tree has at least its root.".to_string(),
            Cause::BadLimit => format!("Take the page limit of the film, 1 to {MAX_LIMIT}."),
            Cause::BadWalk => {
                "Number the nodes child before sibling, and end each chain with 0.".to_string()
            }
            _ => "A tree is an indented text or a table: N and K, then four words a node."
                .to_string(),
        }
    }

    fn heavy_node(&self, node: usize) -> (String, String) {
        let (weight, limit) = (self.word(2 + 4 * (node - 1)), self.word(1));
        let advice = match weight {
            weight if weight <= MAX_LIMIT => format!("or take a limit of {weight} or more"),
            _ => format!("since no limit is over {MAX_LIMIT}"),
        };
        (
            format!("node {node} weighs {weight}, the page limit is {limit}"),
            format!("No plan holds this tree. Divide node {node}, {advice}."),
        )
    }

    fn heavy_page(&self, page: usize) -> (String, String) {
        let weight = self.plan().map_or(0, |plan| plan.page(page).weight);
        (
            format!("page {page} weighs {weight}, the page limit is {}", self.word(1)),
            format!("Cut a run of siblings from page {page}, or have the tree planned: 'balduqen plan'."),
        )
    }

    fn plan(&self) -> Result<Plan, String> {
        Plan::new(&table::read(self.table())?, self.marks().to_vec())
    }

    fn no_archive(&self) -> (String, String) {
        match rule_sheet::walk(self.archive()).end {
            Err((failed, why)) => (format!("{failed}: {why}"), self.no_film(failed.check)),
            Ok(_) => (String::new(), UNSOUND.to_string()),
        }
    }

    /// What the file is, where it is no film, by the check of the rule sheet that fails.
    fn no_film(&self, check: u32) -> String {
        match content(self.archive()) {
            Content::Text(text) => match text::read(&text) {
                Ok(_) => {
                    "This is a tree as a text, and no film: 'balduqen write' makes film of it."
                        .to_string()
                }
                Err(fault) => format!("This is a text, and no film; nor is it a tree: {fault}."),
            },
            Content::Spoiled(_) => "This is a text, and no film.".to_string(),
            Content::Bytes if table::read(self.archive()).is_ok() => {
                "This is a tree as a table, and no film: 'balduqen write' makes film of it."
                    .to_string()
            }
            // The first four are of the head.
            Content::Bytes if check <= 4 => {
                "Neither film nor a table. If it was film, see section 11 of docs/RULE-SHEET.txt."
                    .to_string()
            }
            Content::Bytes => UNSOUND.to_string(),
        }
    }

    fn word(&self, index: usize) -> usize {
        match self.table().get(2 * index..2 * index + 2) {
            Some(word) => 256 * usize::from(word[0]) + usize::from(word[1]),
            None => 0,
        }
    }
}

/// What the list says, without number and place.
fn in_words(refusal: Refusal) -> String {
    let said = refusal.to_string();
    let words = said.split_once(": ");
    words.map_or(String::new(), |(_, words)| words.to_string())
}

#[cfg(test)]
mod tests {
    use super::*;
    use balduqen::Edition;

    const TABLE: &[u8] = include_bytes!("../samples/e.table");
    const MARKS: [u8; 6] = [1, 1, 2, 1, 2, 2];

    fn tree(table: &[u8]) -> TreeFile {
        TreeFile {
            name: "t".to_string(),
            table: table.to_vec(),
            lines: None,
        }
    }

    fn marks(marks: &[u8]) -> MarksFile {
        MarksFile {
            name: "m".to_string(),
            marks: marks.to_vec(),
            lines: vec![],
        }
    }

    fn film(archive: &[u8]) -> FilmFile {
        FilmFile {
            name: "-".to_string(),
            archive: archive.to_vec(),
        }
    }

    fn say_of_plan(table: &[u8], plan: &[u8], refusal: Refusal) -> String {
        let (tree, marks) = (tree(table), marks(plan));
        let lent = Lent {
            tree: Some(&tree),
            marks: Some(&marks),
            ..Lent::default()
        };
        lent.say(refusal)
    }

    fn say_of_film(archive: &[u8], refusal: Refusal) -> String {
        let film = film(archive);
        let lent = Lent {
            film: Some(&film),
            ..Lent::default()
        };
        lent.say(refusal)
    }

    /// Each refusal is told with its file, its number, its place, what was found and what to do.
    fn check(file: &str, said: &str, refusal: Refusal) {
        let Refusal { cause, place } = refusal;
        let begins = format!("{file}: refused {} at {place}: ", cause.number());
        let (found, advice) = said.split_once("\n    ").expect("two lines");
        let found = found.strip_prefix(&begins).expect(said);
        assert!(!found.is_empty() && !advice.is_empty(), "{said}");
        assert!(!advice.contains('\n'), "{said}");
    }

    const OF_MARKS: [Cause; 3] = [Cause::BadMarks, Cause::BadMark, Cause::HeavyPage];

    /// Every byte of case E's table changed in every way, and the table cut short at every length.
    #[test]
    fn damaged_tables() {
        let mut causes = vec![];
        let mut look = |table: &[u8]| {
            let refused = balduqen::judge(table, &MARKS).err();
            // What is no table here is none there; weights and labels are looked at there only.
            let is_form = |refusal: Refusal| {
                ![Cause::HeavyNode, Cause::NoLabel].contains(&refusal.cause)
                    && !OF_MARKS.contains(&refusal.cause)
            };
            match table::read(table) {
                Ok(_) => assert!(refused.is_none_or(|refusal| !is_form(refusal))),
                Err(_) => assert!(refused.is_some()),
            }
            if let Some(refusal) = refused {
                let file = match OF_MARKS.contains(&refusal.cause) {
                    true => "m",
                    false => "t",
                };
                check(file, &say_of_plan(table, &MARKS, refusal), refusal);
                causes.push(refusal.cause);
            }
        };
        for at in 0..TABLE.len() {
            look(&TABLE[..at]);
            for byte in 0..=255 {
                let mut table = TABLE.to_vec();
                table[at] = byte;
                look(&table);
            }
        }
        causes.sort_unstable();
        causes.dedup();
        let wanted = [
            Cause::ShortTable,
            Cause::BadCount,
            Cause::BadLimit,
            Cause::BadLength,
            Cause::BadWalk,
            Cause::HeavyNode,
            Cause::HeavyPage,
            Cause::NoLabel,
        ];
        assert_eq!(causes, wanted);
    }

    /// Every plan of four marks each for case E, and too few of them.
    #[test]
    fn refused_plans() {
        for code in 0..4usize.pow(6) {
            let marks: Vec<u8> = (0..6).map(|at| (code / 4usize.pow(at) % 4) as u8).collect();
            for marks in [&marks[..], &marks[..code % 6]] {
                if let Err(refusal) = balduqen::judge(TABLE, marks) {
                    check("m", &say_of_plan(TABLE, marks, refusal), refusal);
                }
            }
        }
    }

    /// Film of both editions with every byte changed in every way: the rule sheet says why wherever
    /// the library refuses.
    #[test]
    fn damaged_film() {
        for edition in Edition::ALL {
            let archive = balduqen::write_archive(edition, TABLE, &MARKS).expect("an archive");
            for at in 0..archive.len() {
                for byte in 0..=255 {
                    let mut archive = archive.clone();
                    archive[at] = byte;
                    match balduqen::read_archive(&archive) {
                        Err(refusal) => {
                            check("standard input", &say_of_film(&archive, refusal), refusal)
                        }
                        Ok(_) => assert!(rule_sheet::rebuild(&archive).is_ok()),
                    }
                }
            }
        }
    }

    /// A number that is not in the list, and one that no command can get: both are told as they are.
    #[test]
    fn faults_of_the_program() {
        for cause in [Cause::Unlisted(99), Cause::BadOutput] {
            let refusal = Refusal { cause, place: 7 };
            let said = say_of_plan(TABLE, &MARKS, refusal);
            check("t", &said, refusal);
            assert!(said.ends_with("This is a fault of the program."), "{said}");
        }
    }
}
