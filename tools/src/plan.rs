//! A plan and its pages. It comes as a mark a node, or as the pages are listed.

use crate::element::counted;
use crate::film;
use crate::quote::quote;
use crate::text::{lines, read_number};
use crate::tree::{Tree, WORDS};
use balduqen::Edition;

/// A page: its run from first node to last sibling, and the weight of all its nodes.
#[derive(Clone, Debug, PartialEq, Eq)]
pub struct Page {
    pub first: usize,
    pub last: usize,
    pub weight: u32,
}

#[derive(Clone, Debug, PartialEq, Eq)]
pub struct Plan {
    marks: Vec<u8>,
    page_of: Vec<usize>,
    /// Page 1 first.
    pub pages: Vec<Page>,
}

impl Plan {
    /// The plan of these marks, if they are allowed. A page may weigh over the limit.
    pub fn new(tree: &Tree, marks: Vec<u8>) -> Result<Plan, String> {
        if marks.len() != tree.count() {
            let (given, wanted) = (marks.len(), tree.count());
            let (given, wanted) = (counted(given, "mark"), counted(wanted, "node"));
            return Err(format!("{given} for a tree of {wanted}"));
        }
        let mut plan = Plan {
            marks,
            page_of: vec![],
            pages: vec![],
        };
        for number in tree.numbers() {
            plan.check(tree, number)?;
            plan.place(tree, number);
        }
        Ok(plan)
    }

    pub fn mark(&self, number: usize) -> u8 {
        self.marks[number - 1]
    }

    pub fn page_of(&self, number: usize) -> usize {
        self.page_of[number - 1]
    }

    pub fn page(&self, page: usize) -> &Page {
        &self.pages[page - 1]
    }

    fn check(&self, tree: &Tree, number: usize) -> Result<(), String> {
        let mark = self.mark(number);
        let before = tree.node(number).before;
        let reason = match mark {
            3.. => "a mark is 0, 1 or 2",
            0 | 2 if number == 1 => "the root begins a run and has 1",
            2 if before == 0 => "there is no sibling before it",
            2 if self.mark(before) == 0 => "the sibling before it is in no run",
            _ => return Ok(()),
        };
        Err(format!("node {number} has mark {mark}: {reason}"))
    }

    /// Puts the node on its page. Its parent and the sibling before it have been placed.
    fn place(&mut self, tree: &Tree, number: usize) {
        let node = tree.node(number);
        let page = match self.mark(number) {
            0 => self.page_of(node.parent),
            1 => {
                self.pages.push(Page {
                    first: number,
                    last: number,
                    weight: 0,
                });
                self.pages.len()
            }
            _ => {
                let page = self.page_of(node.before);
                self.pages[page - 1].last = number;
                page
            }
        };
        self.page_of.push(page);
        self.pages[page - 1].weight += node.weight;
    }
}

pub const FORM: &str =
    "A plan is a mark a node, 0, 1 or 2, or the pages as 'plan' and 'read' list them.";

/// The marks that a text tells, each with its line. That each is allowed is not looked at, but where
/// the pages are listed: a listing that is no plan's tells none.
pub fn read_marks(tree: &Tree, text: &str) -> Result<(Vec<u8>, Vec<usize>), String> {
    let first = lines(text).next();
    let begins = first.and_then(|(place, line)| Some((place, line.split_whitespace().next()?)));
    match begins {
        Some((_, "pages")) => Ok((read_listing(tree, text)?.marks, vec![])),
        Some((place, "refused")) => Err(format!("line {place}: a refusal, and no plan")),
        _ => {
            let marks = lines(text).flat_map(|(place, line)| {
                let marks = line.split_whitespace().map(read_mark);
                marks.map(move |mark| match mark {
                    Ok(mark) => Ok((mark, place)),
                    Err(fault) => Err(format!("line {place}: {fault}")),
                })
            });
            marks.collect()
        }
    }
}

fn read_mark(word: &str) -> Result<u8, String> {
    let mark = read_number("mark", word, 0..=2)?;
    u8::try_from(mark).map_err(|_| format!("mark {mark} is not in 0 to 2"))
}

/// So many marks stand in a line of a text.
const MARKS_A_LINE: usize = 40;

/// The marks as a text.
pub fn write_marks(marks: &[u8]) -> String {
    let line = |marks: &[u8]| {
        let marks: Vec<String> = marks.iter().map(u8::to_string).collect();
        marks.join(" ") + "\n"
    };
    marks.chunks(MARKS_A_LINE).map(line).collect()
}

/// A listing as it is read: its head, its pages and what 'read' says of the film, each with its line.
#[derive(Default)]
struct Listing<'a> {
    head: Option<(usize, [u32; 3])>,
    pages: Vec<(usize, [u32; 4])>,
    film: Option<(usize, &'a str)>,
}

impl<'a> Listing<'a> {
    fn add(&mut self, place: usize, line: &'a str) -> Result<(), String> {
        let words: Vec<&str> = line.split_whitespace().collect();
        match words[..] {
            _ if self.head.is_none() => {
                self.head = Some((place, read_figures(line, ["pages", "root", "limit"])?));
            }
            _ if self.film.is_some() && film::is_of_labels(line) => {}
            _ if self.film.is_some() => {
                return Err(format!("{} is no end of a listing", quote(line)));
            }
            ["edition", ..] => self.film = Some((place, line)),
            _ => {
                let figures = read_figures(line, ["page", "first", "last", "weight"])?;
                self.pages.push((place, figures));
            }
        }
        Ok(())
    }
}

/// The runs give the marks, and the marks the plan. The listing must then be that plan's, since one
/// made for another tree would draw a wrong picture.
fn read_listing(tree: &Tree, text: &str) -> Result<Plan, String> {
    let mut listing = Listing::default();
    for (place, line) in lines(text) {
        let added = listing.add(place, line);
        added.map_err(|fault| format!("line {place}: {fault}"))?;
    }
    let (place, head) = listing.head.unwrap_or_default();
    let (said, listed) = (head[0] as usize, listing.pages.len());
    if said != listed {
        let said = counted(said, "page");
        return Err(format!("line {place}: {said}, and {listed} are listed"));
    }
    let mut marks = vec![0; tree.count()];
    for (place, [_, first, last, _]) in &listing.pages {
        let marked = mark_run(tree, &mut marks, *first as usize, *last as usize);
        marked.map_err(|fault| format!("line {place}: {fault}"))?;
    }
    let plan = Plan::new(tree, marks)?;
    compare(tree, &plan, (place, head), &listing.pages)?;
    match listing.film {
        Some((place, line)) if !is_told(tree, &plan, line) => {
            let fault = "is said of other film than this tree's";
            Err(format!("line {place}: {} {fault}", quote(line)))
        }
        _ => Ok(plan),
    }
}

/// Whether a line is what 'read' says of film of this tree and plan.
fn is_told(tree: &Tree, plan: &Plan, line: &str) -> bool {
    let (nodes, pages) = (tree.count(), plan.pages.len());
    let mut editions = Edition::ALL.into_iter();
    editions.any(|edition| line.trim() == film::told(edition, nodes, pages))
}

/// The numbers of a line that has a number after each of these names.
fn read_figures<const N: usize>(line: &str, names: [&str; N]) -> Result<[u32; N], String> {
    let words: Vec<&str> = line.split_whitespace().collect();
    let named = words.iter().step_by(2).eq(names.iter());
    if words.len() != 2 * N || !named {
        let form = names.map(|name| format!("{name} ..")).join(" ");
        return Err(format!("{} is not of the form '{form}'", quote(line)));
    }
    let mut figures = [0; N];
    for (index, name) in names.into_iter().enumerate() {
        figures[index] = read_number(name, words[2 * index + 1], WORDS)?;
    }
    Ok(figures)
}

/// Marks the run from its last sibling back to its first node.
fn mark_run(tree: &Tree, marks: &mut [u8], first: usize, last: usize) -> Result<(), String> {
    let mut number = last;
    loop {
        if number == 0 || number > tree.count() {
            return Err(format!("nodes {first} to {last} are no run of siblings"));
        }
        if marks[number - 1] != 0 {
            return Err(format!("node {number} is in two runs"));
        }
        if number == first {
            marks[number - 1] = 1;
            return Ok(());
        }
        marks[number - 1] = 2;
        number = tree.node(number).before;
    }
}

/// Head and pages, each with its line, as they are for this tree.
fn compare(
    tree: &Tree,
    plan: &Plan,
    (place, head): (usize, [u32; 3]),
    listed: &[(usize, [u32; 4])],
) -> Result<(), String> {
    let right = [plan.pages.len() as u32, plan.page(1).weight, tree.limit];
    if head != right {
        let [pages, root, limit] = right;
        return Err(format!(
            "line {place}: for this tree it is 'pages {pages} root {root} limit {limit}'"
        ));
    }
    for (((place, figures), page), number) in listed.iter().zip(&plan.pages).zip(1..) {
        let Page {
            first,
            last,
            weight,
        } = *page;
        if *figures != [number, first as u32, last as u32, weight] {
            return Err(format!(
                "line {place}: for this tree it is 'page {number} first {first} last {last} weight {weight}'"
            ));
        }
    }
    Ok(())
}

#[cfg(test)]
mod tests {
    use super::*;
    use crate::tree::tests::case_e;

    const E: &str = include_str!("../samples/e.plan");

    fn page(first: usize, last: usize, weight: u32) -> Page {
        Page {
            first,
            last,
            weight,
        }
    }

    fn read(tree: &Tree, text: &str) -> Result<Plan, String> {
        Plan::new(tree, read_marks(tree, text)?.0)
    }

    fn fault(text: &str) -> String {
        read(&case_e(), text).expect_err(text)
    }

    /// The listing of case E with another text in one place.
    fn changed(from: &str, to: &str) -> String {
        assert_eq!(E.matches(from).count(), 1, "{from}");
        fault(&E.replace(from, to))
    }

    #[test]
    fn case_e_both_ways() {
        let plan = read(&case_e(), "1 1 2 1 2 2\n").unwrap();
        assert_eq!(plan.pages, [page(1, 1, 5), page(2, 6, 4), page(4, 5, 4)]);
        assert_eq!(plan.page_of, [1, 2, 2, 3, 3, 2]);
        assert_eq!(read(&case_e(), E), Ok(plan));
        assert_eq!(write_marks(&[1, 1, 2, 1, 2, 2]), "1 1 2 1 2 2\n");
    }

    /// As trees are read: with a byte-order mark, comments and blank lines.
    #[test]
    fn noted_marks() {
        let noted = "\u{feff}# by hand\r\n1 1 2 # lots\r\n\r\n\t1 2\n2";
        let marks = (vec![1, 1, 2, 1, 2, 2], vec![2, 2, 2, 4, 4, 5]);
        assert_eq!(read_marks(&case_e(), noted), Ok(marks));
        let listing = format!("# shift 7\n\n{}", E.replace('\n', " # a page\n"));
        assert_eq!(read(&case_e(), &listing), read(&case_e(), E));
    }

    /// The listing as 'read' writes it tells of the film, too.
    #[test]
    fn listings_of_film() {
        let told = "edition 1, 6 nodes, 78 bytes\n";
        let unfiled = "node 3 has label 0, a lot that nobody had filed\n";
        let listing = format!("{E}{told}{unfiled}");
        assert_eq!(read(&case_e(), &listing), read(&case_e(), E));
        let several = "2 nodes, from 3 on, have label 0, lots that nobody had filed\n";
        assert!(read(&case_e(), &format!("{E}{told}{several}")).is_ok());
        for other in [
            "edition 1, 7 nodes, 78 bytes",
            "edition 2, 6 nodes, 78 bytes",
        ] {
            let wanted = format!("line 5: \"{other}\" is said of other film than this tree's");
            assert_eq!(fault(&format!("{E}{other}\n")), wanted);
        }
    }

    #[test]
    fn listings_cut_short() {
        for (lines, listed) in [(1, 0), (3, 2)] {
            let cut: String = E.split_inclusive('\n').take(lines).collect();
            let wanted = format!("line 1: 3 pages, and {listed} are listed");
            assert_eq!(fault(&cut), wanted);
        }
        let one = "line 1: 1 page, and 0 are listed";
        assert_eq!(fault("pages 1 root 5 limit 5\n"), one);
    }

    #[test]
    fn lines_of_no_listing() {
        let form = "is not of the form 'page .. first .. last .. weight ..'";
        assert_eq!(
            fault(&format!("{E}film\n")),
            format!("line 5: \"film\" {form}")
        );
        // What is said of the film comes last, once, and in full.
        let told = "edition 1, 6 nodes, 78 bytes";
        for line in [told, "node 3 label 0, nonsense", "page 1"] {
            let said = fault(&format!("{E}{told}\n{line}\n"));
            assert_eq!(said, format!("line 6: {line:?} is no end of a listing"));
        }
        let unfiled = "node 3 has label 0, a lot that nobody had filed";
        assert_eq!(
            fault(&format!("{E}{unfiled}\n")),
            format!("line 5: {unfiled:?} {form}")
        );
    }

    #[test]
    fn many_marks_take_many_lines() {
        let text = write_marks(&[1; 81]);
        assert_eq!(text.lines().map(str::len).collect::<Vec<_>>(), [79, 79, 1]);
        assert_eq!(read_marks(&case_e(), &text).unwrap().0, [1; 81]);
    }

    #[test]
    fn nodes_that_stay_weigh_on_the_page() {
        let plan = read(&case_e(), "1 1 1 0 0 1").unwrap();
        let pages = [page(1, 1, 5), page(2, 2, 2), page(3, 3, 5), page(6, 6, 1)];
        assert_eq!(plan.pages, pages);
        let heavy = read(&case_e(), "1 0 0 0 0 0").unwrap();
        assert_eq!(heavy.pages, [page(1, 1, 13)]);
    }

    #[test]
    fn bad_marks() {
        assert_eq!(fault(" \n"), "0 marks for a tree of 6 nodes");
        assert_eq!(fault("refused 7 at 1\n"), "line 1: a refusal, and no plan");
        assert_eq!(fault("1 1 1 1 1"), "5 marks for a tree of 6 nodes");
        let three = "node 3 has mark 3: a mark is 0, 1 or 2";
        assert_eq!(fault("1 1 3 1 1 1"), three);
        assert_eq!(fault("1 1 256 1 1 1"), "line 1: mark 256 is not in 0 to 2");
        assert_eq!(fault("1 1\nx 1"), "line 2: mark \"x\" is not a number");
        let root = "node 1 has mark 0: the root begins a run and has 1";
        assert_eq!(fault("0 1 1 1 1 1"), root);
        let first = "node 2 has mark 2: there is no sibling before it";
        assert_eq!(fault("1 2 0 0 0 0"), first);
        let apart = "node 3 has mark 2: the sibling before it is in no run";
        assert_eq!(fault("1 0 2 0 0 0"), apart);
    }

    #[test]
    fn bad_listings() {
        let form = "line 2: \"page 1\" is not of the form 'page .. first .. last .. weight ..'";
        assert_eq!(fault("pages 1 root 5 limit 5\npage 1\n"), form);
        let number = "line 3: last \"x\" is not a number";
        assert_eq!(changed("last 6", "last x"), number);
        let cousins = "line 3: nodes 2 to 5 are no run of siblings";
        assert_eq!(changed("last 6", "last 5"), cousins);
        let beyond = "line 3: nodes 2 to 7 are no run of siblings";
        assert_eq!(changed("last 6", "last 7"), beyond);
        let back = "line 4: nodes 5 to 4 are no run of siblings";
        assert_eq!(changed("first 4 last 5", "first 5 last 4"), back);
        let twice = "line 4: node 6 is in two runs";
        assert_eq!(changed("first 4 last 5", "first 6 last 6"), twice);
    }

    #[test]
    fn listings_of_another_tree() {
        let head = "line 1: for this tree it is 'pages 3 root 5 limit 5'";
        assert_eq!(changed("limit 5", "limit 6"), head);
        assert_eq!(changed("root 5", "root 4"), head);
        let more = "line 1: 4 pages, and 3 are listed";
        assert_eq!(changed("pages 3", "pages 4"), more);
        let second = "line 3: for this tree it is 'page 2 first 2 last 6 weight 4'";
        assert_eq!(changed("last 6 weight 4", "last 6 weight 5"), second);
        assert_eq!(changed("page 2", "page 3"), second);
        let short = "line 1: 3 pages, and 2 are listed";
        assert_eq!(changed("page 3 first 4 last 5 weight 4\n", ""), short);
    }
}
