//! The archive of a plan in plain Rust, in both editions, with all that the library's entries do: a
//! tree is read and checked, its plan judged, and every byte written. What is read is written again
//! and compared. No tree here has a label 0.

use crate::planner::{accepted, Answer};
use crate::tree::{word, Page, Tree};

/// The entries of one edition.
pub struct Film {
    /// Table, marks, archive.
    pub write: fn(&[u8], &[u8], &mut [u8]) -> Answer,
    /// Archive, table, marks.
    pub read: fn(&[u8], &mut [u8], &mut [u8]) -> Answer,
    /// From this edition to the other: archive, output.
    pub convert: fn(&[u8], &mut [u8]) -> Answer,
}

/// By edition.
pub const PLAIN: [Film; 2] = [
    Film {
        write: write::<0>,
        read: read::<0>,
        convert: convert::<0, 1>,
    },
    Film {
        write: write::<1>,
        read: read::<1>,
        convert: convert::<1, 0>,
    },
];

/// What sets the editions apart: the words of a head and of a page record, and the most nodes.
struct Edition {
    head: usize,
    page: usize,
    most: usize,
}

const EDITIONS: [Edition; 2] = [
    Edition {
        head: 3,
        page: 4,
        most: 1024,
    },
    Edition {
        head: 4,
        page: 5,
        most: 2048,
    },
];

/// The word that begins the second edition.
const OPENING: usize = 8194;

/// The most nodes of an edition.
pub fn most_nodes(edition: usize) -> usize {
    EDITIONS[edition].most
}

/// The bytes of an archive of so many pages and nodes.
pub fn archive_bytes(edition: usize, pages: usize, nodes: usize) -> usize {
    2 * (EDITIONS[edition].head + EDITIONS[edition].page * pages + 4 * nodes)
}

/// A tree and its plan, as an archive has them.
struct Content<'a> {
    tree: Tree,
    /// The labels are read off it.
    table: &'a [u8],
    pages: Vec<Page>,
    /// The page of each node, from 0 on.
    page_of: Vec<usize>,
}

impl Content<'_> {
    /// The tree of a table and an allowed plan of it, or what is refused before 10.
    fn new<'a>(table: &'a [u8], marks: &[u8]) -> Result<Content<'a>, Answer> {
        let tree = Tree::read(table)?;
        if marks.len() != tree.count() {
            return Err(Answer::refused(8, tree.count()));
        }
        let (pages, page_of) = tree.pages_and_nodes(marks);
        Ok(Content {
            tree,
            table,
            pages,
            page_of,
        })
    }

    /// Puts it on film: 15, 12, or the verdict.
    fn put<const E: usize>(&self, archive: &mut [u8]) -> Answer {
        let (pages, nodes) = (self.pages.len(), self.tree.count());
        if nodes > EDITIONS[E].most {
            return Answer::refused(15, nodes);
        }
        let length = archive_bytes(E, pages, nodes);
        if archive.len() != length {
            return Answer::refused(12, length);
        }
        // How many nodes each page has, and the next node of the same page.
        let mut on_page = vec![0; pages];
        let mut newest = vec![0; pages];
        let mut next = vec![0; nodes + 1];
        for node in 1..=nodes {
            let page = self.page_of[node];
            next[newest[page]] = node;
            newest[page] = node;
            on_page[page] += 1;
        }
        newest.iter().for_each(|&last| next[last] = 0);
        let mut words = archive.chunks_exact_mut(2);
        let mut put = |value: usize| {
            let bytes = (value as u16).to_be_bytes();
            words.next().expect("a word").copy_from_slice(&bytes);
        };
        if E == 1 {
            put(OPENING);
        }
        for value in [nodes, self.tree.limit, pages] {
            put(value);
        }
        for (index, page) in self.pages.iter().enumerate() {
            put(page.first as usize);
            put(page.last as usize);
            put(page.weight as usize);
            put(if index + 1 == pages { 0 } else { index + 2 });
            if E == 1 {
                put(on_page[index]);
            }
        }
        for (node, &next) in next.iter().enumerate().skip(1) {
            put(self.tree.weight[node] as usize);
            put(word(self.table, 3 + 4 * (node - 1)));
            put(self.tree.parent[node]);
            put(next);
        }
        accepted(&self.pages)
    }
}

fn write<const E: usize>(table: &[u8], marks: &[u8], archive: &mut [u8]) -> Answer {
    match Content::new(table, marks) {
        Ok(content) => content.put::<E>(archive),
        Err(refusal) => refusal,
    }
}

fn read<const E: usize>(archive: &[u8], table: &mut [u8], marks: &mut [u8]) -> Answer {
    let Some((new_table, new_marks)) = decode::<E>(archive) else {
        return Answer::refused(13, 0);
    };
    let Some((_, verdict)) = written::<E>(archive, &new_table, &new_marks) else {
        return Answer::refused(13, 0);
    };
    if table.len() != new_table.len() {
        return Answer::refused(12, new_table.len());
    }
    if marks.len() != new_marks.len() {
        return Answer::refused(8, new_marks.len());
    }
    table.copy_from_slice(&new_table);
    marks.copy_from_slice(&new_marks);
    verdict
}

fn convert<const E: usize, const TO: usize>(archive: &[u8], out: &mut [u8]) -> Answer {
    let Some((table, marks)) = decode::<E>(archive) else {
        return Answer::refused(13, 0);
    };
    match written::<E>(archive, &table, &marks) {
        Some((content, _)) => content.put::<TO>(out),
        None => Answer::refused(13, 0),
    }
}

/// Table and plan with their verdict, if they are what this archive was written from.
fn written<'a, const E: usize>(
    archive: &[u8],
    table: &'a [u8],
    marks: &[u8],
) -> Option<(Content<'a>, Answer)> {
    let content = Content::new(table, marks).ok()?;
    let mut again = vec![0; archive.len()];
    let verdict = content.put::<E>(&mut again);
    (verdict.number == 0 && again == archive).then_some((content, verdict))
}

/// The only table and marks that could have written these bytes, if any could.
fn decode<const E: usize>(archive: &[u8]) -> Option<(Vec<u8>, Vec<u8>)> {
    let edition = &EDITIONS[E];
    if archive.len() < 2 * edition.head {
        return None;
    }
    let [nodes, limit, pages] = [3, 2, 1].map(|back| word(archive, edition.head - back));
    if nodes > edition.most || archive.len() != archive_bytes(E, pages, nodes) {
        return None;
    }
    let page_at = |page: usize| edition.head + edition.page * (page - 1);
    let node_at = |node: usize| page_at(pages + 1) + 4 * (node - 1);
    let mut first = vec![0; nodes + 1];
    let mut newest = vec![0; nodes + 1];
    let mut next = vec![0; nodes + 1];
    for node in 1..=nodes {
        let parent = word(archive, node_at(node) + 2);
        match *newest.get(parent)? {
            0 => first[parent] = node,
            before => next[before] = node,
        }
        newest[parent] = node;
    }
    let mut table = Vec::with_capacity(4 + 8 * nodes);
    let mut put = |value: usize| table.extend((value as u16).to_be_bytes());
    put(nodes);
    put(limit);
    for node in 1..=nodes {
        put(word(archive, node_at(node)));
        put(word(archive, node_at(node) + 1));
        put(first[node]);
        put(next[node]);
    }
    let mut marks = vec![0; nodes];
    for page in 1..=pages {
        let [mut node, last] = [0, 1].map(|field| word(archive, page_at(page) + field));
        *marks.get_mut(node.wrapping_sub(1))? = 1;
        while node != last {
            node = next[node];
            *marks.get_mut(node.wrapping_sub(1))? = 2;
        }
    }
    Some((table, marks))
}
