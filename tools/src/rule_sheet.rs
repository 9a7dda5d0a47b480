//! A reader of archives, written from docs/RULE-SHEET.txt ALONE.
//!
//! It does what a person with the sheet would do, section by section and check by check, tells the
//! edition by itself as that person has to, and has no rule that is not printed there. It can say
//! of each check what it found. Nothing of the model or the library is used. Its author wrote the
//! sheet as well and so knew documents 01 and 02: that it reads archives as the model does shows
//! that the sheet's rules are complete, not that a stranger finds them clear.

use std::fmt;

/// The edition, which section 5 has written down.
#[derive(Clone, Copy, Debug, PartialEq, Eq)]
pub enum Edition {
    First,
    Two,
}

impl Edition {
    /// Of what the sheet says of the first edition and of edition 2, that for this one.
    fn pick<T>(self, first: T, two: T) -> T {
        match self {
            Edition::First => first,
            Edition::Two => two,
        }
    }

    pub fn number(self) -> usize {
        self.pick(1, 2)
    }
}

/// What the sheet has written down where a check fails (section 5).
#[derive(Clone, Copy, Debug, PartialEq, Eq)]
pub struct Failed {
    pub check: u32,
    pub place: Place,
}

/// Where a check failed.
#[derive(Clone, Copy, Debug, PartialEq, Eq)]
pub enum Place {
    /// The number of the check only.
    None,
    Node(usize),
    Page(usize),
}

/// As section 5 writes it: "check 3", "check 8, node 4", "check 14, page 2".
impl fmt::Display for Failed {
    fn fmt(&self, f: &mut fmt::Formatter) -> fmt::Result {
        write!(f, "check {}", self.check)?;
        match self.place {
            Place::None => Ok(()),
            Place::Node(n) => write!(f, ", node {n}"),
            Place::Page(p) => write!(f, ", page {p}"),
        }
    }
}

/// A line of the table of nodes: the words of its record, then what is added.
#[derive(Clone, Debug, PartialEq, Eq)]
pub struct Node {
    pub weight: usize,
    pub label: usize,
    /// Zero for node 1.
    pub parent: usize,
    /// Zero if there is none.
    pub next_node: usize,
    pub children: Vec<usize>,
    pub mark: u8,
    pub page: usize,
}

/// A line of the table of pages: the words of its record, then what is added.
#[derive(Clone, Debug, PartialEq, Eq)]
pub struct Page {
    pub first_node: usize,
    pub last_sibling: usize,
    pub weight: usize,
    /// Zero if there is none.
    pub next_page: usize,
    /// In edition 2 only.
    pub node_count: Option<usize>,
    pub run: Vec<usize>,
    pub nodes: Vec<usize>,
    /// The sum of the weights of its nodes.
    pub sum: usize,
}

/// What the sheet gets back from a sound archive. Node 1 and page 1 are at index 0.
#[derive(Clone, Debug, PartialEq, Eq)]
pub struct Rebuilt {
    pub edition: Edition,
    pub limit: usize,
    pub nodes: Vec<Node>,
    pub pages: Vec<Page>,
}

/// What a walk by the sheet found: a line for each check that holds, then the end.
#[derive(Clone, Debug, PartialEq, Eq)]
pub struct Walk {
    pub found: Vec<String>,
    /// What is rebuilt, or the check that fails and why.
    pub end: Result<Rebuilt, (Failed, String)>,
}

/// The words of a line as written out.
type Line = Vec<usize>;

/// N, K and P.
struct Head {
    nodes: usize,
    limit: usize,
    pages: usize,
}

/// What is noted on the way. Where nobody wants the lines, none is made.
struct Notes(Option<Vec<String>>);

impl Notes {
    /// This check holds, and what was found.
    fn hold(&mut self, number: u32, found: impl FnOnce() -> String) {
        self.note(|| format!("check {number} holds: {}", found()));
    }

    fn note(&mut self, line: impl FnOnce() -> String) {
        if let Some(lines) = &mut self.0 {
            lines.push(line());
        }
    }
}

/// The tree, the pages and the marks of an archive, if it is sound.
pub fn rebuild(archive: &[u8]) -> Result<Rebuilt, Failed> {
    go_through(archive, &mut Notes(None)).map_err(|fail| fail.0)
}

/// The same with what each check found.
pub fn walk(archive: &[u8]) -> Walk {
    let mut notes = Notes(Some(vec![]));
    let end = go_through(archive, &mut notes);
    Walk {
        found: notes.0.unwrap_or_default(),
        end,
    }
}

/// The check that fails, and why.
type Fail = (Failed, String);

fn go_through(archive: &[u8], notes: &mut Notes) -> Result<Rebuilt, Fail> {
    let edition = tell_edition(archive);
    notes.note(|| match words(archive).next() {
        None => "fewer than two bytes, taken to be of the first edition".to_string(),
        Some(8194) => "the first word is 8,194, so this is edition 2".to_string(),
        Some(word) => format!(
            "the first word is {}, so this is the first edition",
            comma(word)
        ),
    });
    let head = read_head(edition, archive, notes)?;
    let (page_lines, node_lines) = write_out(edition, &head, archive);
    let mut nodes = rebuild_tree(&head, &node_lines, notes)?;
    let mut pages = rebuild_runs(&head, &page_lines, &nodes, notes)?;
    get_marks_back(&mut nodes, &pages);
    rebuild_pages(edition, &head, &mut nodes, &mut pages, notes)?;
    Ok(Rebuilt {
        edition,
        limit: head.limit,
        nodes,
        pages,
    })
}

/// A check of one node or page, or of neither. With '?' it stops at once where it fails.
fn check(number: u32, place: Place, holds: bool, why: impl FnOnce() -> String) -> Result<(), Fail> {
    match holds {
        true => Ok(()),
        false => Err((
            Failed {
                check: number,
                place,
            },
            why(),
        )),
    }
}

/// A number as the sheet prints it: 8,194.
pub fn comma(number: usize) -> String {
    match number {
        0..=999 => number.to_string(),
        _ => format!("{},{:03}", comma(number / 1000), number % 1000),
    }
}

/// Numbers one after the other; of many only those at both ends.
fn list(numbers: impl IntoIterator<Item = usize>) -> String {
    let all: Vec<String> = numbers.into_iter().map(comma).collect();
    match all.len() {
        0..=8 => all.join(", "),
        count => format!("{}, .., {}", all[..4].join(", "), all[count - 1]),
    }
}

/// The word of two bytes (section 1).
fn word(bytes: &[u8]) -> usize {
    256 * usize::from(bytes[0]) + usize::from(bytes[1])
}

/// The words of the bytes. A last byte by itself is none.
fn words(bytes: &[u8]) -> impl Iterator<Item = usize> + '_ {
    bytes.chunks_exact(2).map(word)
}

/// Section 5. With fewer than two bytes there is no first word.
pub fn tell_edition(archive: &[u8]) -> Edition {
    match words(archive).next() {
        Some(8194) => Edition::Two,
        _ => Edition::First,
    }
}

/// Section 6, the checks.
fn read_head(edition: Edition, archive: &[u8], notes: &mut Notes) -> Result<Head, Fail> {
    let length = archive.len();
    let bytes = || format!("{} bytes", comma(length));
    let least = edition.pick(6, 8);
    check(1, Place::None, length >= least, || {
        format!("{}, and a head has {least}", bytes())
    })?;
    notes.hold(1, || format!("{}, at least {least}", bytes()));

    let line: Line = words(archive).take(edition.pick(3, 4)).collect();
    let [n, k, p] = [3, 2, 1].map(|from_end| line[line.len() - from_end]);
    let mut within = |number: u32, name: &str, value: usize, most: usize| {
        let said = |word: &str| {
            format!(
                "{name} is {}, {word}from 1 to {}",
                comma(value),
                comma(most)
            )
        };
        check(number, Place::None, value >= 1 && value <= most, || {
            said("not ")
        })?;
        notes.hold(number, || said(""));
        Ok(())
    };
    within(2, "N", n, edition.pick(1024, 2048))?;
    within(3, "K", k, 1024)?;
    within(4, "P", p, n)?;

    let right = edition.pick(6 + 8 * p + 8 * n, 8 + 10 * p + 8 * n);
    let sum = || {
        edition.pick(
            format!("6 + 8 x {} + 8 x {}", comma(p), comma(n)),
            format!("8 + 10 x {} + 8 x {}", comma(p), comma(n)),
        )
    };
    check(5, Place::None, length == right, || {
        format!("{}, not {} = {}", bytes(), sum(), comma(right))
    })?;
    notes.hold(5, || format!("{}, which is {}", bytes(), sum()));
    Ok(Head {
        nodes: n,
        limit: k,
        pages: p,
    })
}

/// Section 6, after check 5: the lines of the page records and those of the node records.
fn write_out(edition: Edition, head: &Head, archive: &[u8]) -> (Vec<Line>, Vec<Line>) {
    let mut records = words(archive).skip(edition.pick(3, 4));
    let mut lines = |count: usize, of: usize| -> Vec<Line> {
        let line = |_| records.by_ref().take(of).collect();
        (0..count).map(line).collect()
    };
    (lines(head.pages, edition.pick(4, 5)), lines(head.nodes, 4))
}

/// Section 7. Marks and pages are filled in later.
fn rebuild_tree(head: &Head, lines: &[Line], notes: &mut Notes) -> Result<Vec<Node>, Fail> {
    let mut nodes = vec![];
    for record in lines {
        nodes.push(Node {
            weight: record[0],
            label: record[1],
            parent: record[2],
            next_node: record[3],
            children: vec![],
            mark: 0,
            page: 0,
        });
    }
    for (n, node) in (1..).zip(&nodes) {
        check(6, Place::Node(n), node.weight <= head.limit, || {
            format!(
                "its weight is {}, and K is {}",
                comma(node.weight),
                comma(head.limit)
            )
        })?;
    }
    notes.hold(6, || {
        let heaviest = nodes.iter().map(|node| node.weight).max().unwrap_or(0);
        format!(
            "the heaviest node weighs {}, at most {}",
            comma(heaviest),
            comma(head.limit)
        )
    });
    let root = nodes[0].parent;
    check(7, Place::Node(1), root == 0, || {
        format!("its parent is {}, not 0", comma(root))
    })?;
    notes.hold(7, || "the parent of node 1 is 0".to_string());
    for n in 2..=head.nodes {
        let mut met = vec![n - 1];
        while met[met.len() - 1] != 1 {
            met.push(nodes[met[met.len() - 1] - 1].parent);
        }
        let parent = nodes[n - 1].parent;
        check(8, Place::Node(n), met.contains(&parent), || {
            format!(
                "its parent is {}; from node {} you meet {}",
                comma(parent),
                comma(n - 1),
                list(met.iter().copied())
            )
        })?;
    }
    notes.hold(8, || {
        let nodes = comma(head.nodes);
        format!(
            "the parent of each node up to {nodes} is the node before it or an ancestor of that"
        )
    });
    for n in 2..=head.nodes {
        let parent = nodes[n - 1].parent;
        nodes[parent - 1].children.push(n);
    }
    Ok(nodes)
}

/// Section 8. The nodes of the pages and their sums are filled in later.
fn rebuild_runs(
    head: &Head,
    lines: &[Line],
    nodes: &[Node],
    notes: &mut Notes,
) -> Result<Vec<Page>, Fail> {
    let mut pages = vec![];
    for record in lines {
        pages.push(Page {
            first_node: record[0],
            last_sibling: record[1],
            weight: record[2],
            next_page: record[3],
            node_count: record.get(4).copied(),
            run: vec![],
            nodes: vec![],
            sum: 0,
        });
    }
    let (first, last) = (pages[0].first_node, pages[0].last_sibling);
    check(9, Place::Page(1), first == 1 && last == 1, || {
        format!(
            "its first node is {} and its last sibling {}",
            comma(first),
            comma(last)
        )
    })?;
    notes.hold(9, || {
        "page 1 has first node 1 and last sibling 1".to_string()
    });
    for (p, two) in (2..).zip(pages.windows(2)) {
        let (before, first) = (two[0].first_node, two[1].first_node);
        check(
            10,
            Place::Page(p),
            first > before && first <= head.nodes,
            || {
                format!(
                    "its first node is {}; that of the page before is {}, and N is {}",
                    comma(first),
                    comma(before),
                    comma(head.nodes)
                )
            },
        )?;
    }
    notes.hold(10, || {
        format!(
            "the first nodes rise: {}",
            list(pages.iter().map(|page| page.first_node))
        )
    });
    let parent = |n: usize| nodes[n - 1].parent;
    for (p, page) in (1..).zip(&pages) {
        let (first, last) = (page.first_node, page.last_sibling);
        let is_later_sibling = last > first && last <= head.nodes && parent(last) == parent(first);
        check(
            11,
            Place::Page(p),
            last == first || is_later_sibling,
            || {
                format!(
                    "its last sibling {} is no later sibling of node {}",
                    comma(last),
                    comma(first)
                )
            },
        )?;
    }
    notes.hold(11, || {
        let lasts = list(pages.iter().map(|page| page.last_sibling));
        format!("the last siblings are the first nodes or later siblings of them: {lasts}")
    });
    let mut runs_of = vec![0; head.nodes];
    for page in &mut pages {
        for n in page.first_node..=page.last_sibling {
            if parent(n) == parent(page.first_node) {
                page.run.push(n);
                runs_of[n - 1] += 1;
            }
        }
    }
    // In rising order, so that it fails at the lowest node that is in two runs.
    for n in 1..=head.nodes {
        check(12, Place::Node(n), runs_of[n - 1] < 2, || {
            format!("it is in {} runs", runs_of[n - 1])
        })?;
    }
    notes.hold(12, || {
        let nodes = pages.iter().map(|page| page.run.len()).sum();
        format!(
            "no node is in two runs; {} of the nodes are in runs",
            comma(nodes)
        )
    });
    for (p, page) in (1..).zip(&pages) {
        let next_page = if p < head.pages { p + 1 } else { 0 };
        check(13, Place::Page(p), page.next_page == next_page, || {
            format!(
                "its next page is {}, not {}",
                comma(page.next_page),
                comma(next_page)
            )
        })?;
    }
    notes.hold(13, || {
        format!(
            "the next pages are {}",
            list(pages.iter().map(|page| page.next_page))
        )
    });
    Ok(pages)
}

/// Section 9, and the pages of the nodes in runs, which section 10 needs.
fn get_marks_back(nodes: &mut [Node], pages: &[Page]) {
    for (p, page) in (1..).zip(pages) {
        for &n in &page.run {
            nodes[n - 1].mark = if n == page.first_node { 1 } else { 2 };
            nodes[n - 1].page = p;
        }
    }
}

/// Section 10.
fn rebuild_pages(
    edition: Edition,
    head: &Head,
    nodes: &mut [Node],
    pages: &mut [Page],
    notes: &mut Notes,
) -> Result<(), Fail> {
    for n in 1..=head.nodes {
        if nodes[n - 1].mark == 0 {
            nodes[n - 1].page = nodes[nodes[n - 1].parent - 1].page;
        }
        pages[nodes[n - 1].page - 1].nodes.push(n);
    }
    for page in pages.iter_mut() {
        page.sum = page.nodes.iter().map(|&n| nodes[n - 1].weight).sum();
    }
    for (p, page) in (1..).zip(pages.iter()) {
        check(14, Place::Page(p), page.sum == page.weight, || {
            format!(
                "its nodes weigh {}, and its record says {}",
                comma(page.sum),
                comma(page.weight)
            )
        })?;
    }
    notes.hold(14, || {
        format!(
            "the pages weigh what their records say: {}",
            list(pages.iter().map(|page| page.sum))
        )
    });
    for (p, page) in (1..).zip(pages.iter()) {
        check(15, Place::Page(p), page.sum <= head.limit, || {
            format!(
                "it weighs {}, and K is {}",
                comma(page.sum),
                comma(head.limit)
            )
        })?;
    }
    notes.hold(15, || {
        let heaviest = pages.iter().map(|page| page.sum).max().unwrap_or(0);
        format!(
            "the heaviest page weighs {}, at most {}",
            comma(heaviest),
            comma(head.limit)
        )
    });
    for (n, node) in (1..).zip(nodes.iter()) {
        let of_page = &pages[node.page - 1].nodes;
        let next_node = of_page
            .iter()
            .copied()
            .find(|&other| other > n)
            .unwrap_or(0);
        check(16, Place::Node(n), node.next_node == next_node, || {
            format!(
                "its next node is {}, not {}",
                comma(node.next_node),
                comma(next_node)
            )
        })?;
    }
    notes.hold(16, || {
        format!(
            "the next nodes are those of the pages: {}",
            list(nodes.iter().map(|node| node.next_node))
        )
    });
    if edition == Edition::First {
        return Ok(());
    }
    for (p, page) in (1..).zip(pages.iter()) {
        let (number, count) = (page.nodes.len(), page.node_count);
        check(17, Place::Page(p), count == Some(number), || {
            let count = comma(count.unwrap_or(0));
            format!(
                "it has {} nodes, and its record says {count}",
                comma(number)
            )
        })?;
    }
    notes.hold(17, || {
        format!(
            "the pages have as many nodes as their records say: {}",
            list(pages.iter().map(|page| page.nodes.len()))
        )
    });
    for (n, node) in (1..).zip(nodes.iter()) {
        check(18, Place::Node(n), node.label != 0, || {
            "its label is 0".to_string()
        })?;
    }
    notes.hold(18, || "no label is 0".to_string());
    Ok(())
}

/// The end of section 10: the short way to list the nodes of a page, if check 16 holds.
pub fn list_nodes(rebuilt: &Rebuilt, p: usize) -> Vec<usize> {
    let mut list = vec![];
    let mut n = rebuilt.pages[p - 1].first_node;
    while n != 0 {
        list.push(n);
        n = rebuilt.nodes[n - 1].next_node;
    }
    list
}
