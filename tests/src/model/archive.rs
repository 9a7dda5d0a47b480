//! The archive's writer and reader in both editions, and the converters between these: refusals 12,
//! 13, 14 and 15.

use super::{judge, pages, read, read_as_before, verdict, word, Answer, Tree};

/// What sets one edition of the archive apart from the other. All else they have in common.
#[derive(Clone, Copy, Debug, PartialEq, Eq)]
pub struct Edition {
    pub number: usize,
    /// The words in front of N, K and P.
    pub opening: &'static [usize],
    /// The words of a page record. The fifth is the number of nodes on the page.
    pub page_words: usize,
    pub most_nodes: usize,
    /// Whether no label on its film is 0.
    pub is_filed: bool,
}

/// The edition of document 01. Film decks in use size their memory by its 1,024 nodes, and film from
/// before labels of 0 were refused may have some.
pub const FIRST: Edition = Edition {
    number: 1,
    opening: &[],
    page_words: 4,
    most_nodes: 1024,
    is_filed: false,
};

/// The edition of request Six.
pub const SECOND: Edition = Edition {
    number: 2,
    opening: &[8194],
    page_words: 5,
    most_nodes: 2048,
    is_filed: true,
};

pub const EDITIONS: [Edition; 2] = [FIRST, SECOND];

/// The most nodes of the first edition.
pub const ARCHIVE_NODES: usize = FIRST.most_nodes;

/// What an archive was written from.
struct Told {
    table: Vec<u8>,
    tree: Tree,
    marks: Vec<u8>,
    verdict: Answer,
}

impl Edition {
    /// The one that its film is converted to.
    pub fn other(&self) -> Edition {
        EDITIONS[2 - self.number]
    }

    /// Where N stands, as an index of words. K and P follow.
    pub fn head_at(&self) -> usize {
        self.opening.len()
    }

    /// The words N, K and P of an archive that is long enough for them.
    pub fn head(&self, archive: &[u8]) -> [usize; 3] {
        [0, 1, 2].map(|field| word(archive, self.head_at() + field))
    }

    /// Where the record of a page begins.
    pub fn page_at(&self, page: usize) -> usize {
        self.head_at() + 3 + self.page_words * (page - 1)
    }

    /// Where the record of a node begins, behind so many pages.
    pub fn node_at(&self, pages: usize, node: usize) -> usize {
        self.page_at(pages + 1) + 4 * (node - 1)
    }

    /// The bytes of an archive with so many pages and nodes.
    pub fn length(&self, pages: usize, nodes: usize) -> usize {
        2 * self.node_at(pages, nodes + 1)
    }

    /// The bytes that a tree and a plan with allowed marks come to, also where the writer refuses
    /// them.
    pub fn bytes(&self, tree: &Tree, marks: &[u8]) -> Vec<u8> {
        let pages = pages(tree, marks);
        let mut words = self.opening.to_vec();
        words.extend([tree.node_count(), tree.limit as usize, pages.len()]);
        for (index, page) in pages.iter().enumerate() {
            let next = if index + 1 == pages.len() {
                0
            } else {
                index + 2
            };
            let (weight, nodes) = (page.weight as usize, page.nodes.len());
            let record = [page.first, page.last, weight, next, nodes];
            words.extend(&record[..self.page_words]);
        }
        let mut next = vec![0; tree.node_count() + 1];
        for two in pages.iter().flat_map(|page| page.nodes.windows(2)) {
            next[two[0]] = two[1];
        }
        for node in tree.nodes() {
            let (weight, label) = (tree.weights[node] as usize, tree.labels[node] as usize);
            words.extend([weight, label, tree.parents[node], next[node]]);
        }
        to_bytes(&words)
    }

    pub fn write(&self, table: &[u8], marks: &[u8], archive: &mut [u8]) -> Answer {
        let verdict = judge(table, marks);
        if !verdict.is_accepted() {
            return verdict;
        }
        let tree = read(table).expect("the judge accepts the tree");
        self.put(&tree, marks, verdict, archive)
    }

    /// Puts a tree and a feasible plan into an archive: 15, then 12, or their verdict.
    fn put(&self, tree: &Tree, marks: &[u8], verdict: Answer, archive: &mut [u8]) -> Answer {
        if tree.node_count() > self.most_nodes {
            return Answer::refused(15, tree.node_count());
        }
        let bytes = self.bytes(tree, marks);
        if archive.len() != bytes.len() {
            return Answer::refused(12, bytes.len());
        }
        archive.copy_from_slice(&bytes);
        verdict
    }

    pub fn read(&self, archive: &[u8], table: &mut [u8], marks: &mut [u8]) -> Answer {
        let Some(told) = self.tell(archive) else {
            return Answer::refused(13, 0);
        };
        if table.len() != told.table.len() {
            return Answer::refused(12, told.table.len());
        }
        if marks.len() != told.marks.len() {
            return Answer::refused(8, told.marks.len());
        }
        table.copy_from_slice(&told.table);
        marks.copy_from_slice(&told.marks);
        told.verdict
    }

    /// Writes what film of this edition holds as film of the other one.
    pub fn convert(&self, archive: &[u8], out: &mut [u8]) -> Answer {
        let Some(told) = self.tell(archive) else {
            return Answer::refused(13, 0);
        };
        let to = self.other();
        let mut nodes = told.tree.nodes();
        match nodes.find(|&node| to.is_filed && told.tree.labels[node] == 0) {
            Some(node) => Answer::refused(14, node),
            None => to.put(&told.tree, &told.marks, told.verdict, out),
        }
    }

    /// What writes these bytes; none is 13. Where labels of 0 are read, 13 is what the writer without
    /// 14 could not write. That writer writes no more nodes than the writer does, so that more are
    /// 13, whatever else there is.
    fn tell(&self, archive: &[u8]) -> Option<Told> {
        let (table, marks) = self.rebuild(archive)?;
        let tree = match self.is_filed {
            true => read(&table).ok()?,
            false => read_as_before(&table).ok()?,
        };
        let verdict = verdict(&tree, &marks);
        let is_written = verdict.is_accepted() && self.bytes(&tree, &marks) == archive;
        is_written.then_some(Told {
            table,
            tree,
            marks,
            verdict,
        })
    }

    /// The only table and marks that could have written these bytes, if they can be told at all. The
    /// links follow from the parents and the marks from the runs; whether the rest agrees is found
    /// out by writing them again.
    fn rebuild(&self, archive: &[u8]) -> Option<(Vec<u8>, Vec<u8>)> {
        if archive.len() < 2 * self.page_at(1) {
            return None;
        }
        let [count, limit, page_count] = self.head(archive);
        if count > self.most_nodes || archive.len() != self.length(page_count, count) {
            return None;
        }
        let page_word = |page, field| word(archive, self.page_at(page) + field);
        let node_word = |node, field| word(archive, self.node_at(page_count, node) + field);

        // Siblings are in rising order, since the walk meets all nodes in order.
        let mut children = vec![vec![]; count + 1];
        for node in 1..=count {
            children.get_mut(node_word(node, 2))?.push(node);
        }
        let mut first_child = vec![0; count + 1];
        let mut next_sibling = vec![0; count + 1];
        for node in 1..=count {
            first_child[node] = children[node].first().copied().unwrap_or(0);
        }
        for chain in &children {
            for two in chain.windows(2) {
                next_sibling[two[0]] = two[1];
            }
        }

        let mut words = vec![count, limit];
        for node in 1..=count {
            words.extend([node_word(node, 0), node_word(node, 1)]);
            words.extend([first_child[node], next_sibling[node]]);
        }

        let mut marks = vec![0; count];
        for page in 1..=page_count {
            let (first, last) = (page_word(page, 0), page_word(page, 1));
            if first == 0 || first > count {
                return None;
            }
            marks[first - 1] = 1;
            let mut node = first;
            while node != last {
                node = next_sibling[node];
                if node == 0 {
                    return None;
                }
                marks[node - 1] = 2;
            }
        }
        Some((to_bytes(&words), marks))
    }
}

fn to_bytes(words: &[usize]) -> Vec<u8> {
    words
        .iter()
        .flat_map(|&word| {
            u16::try_from(word)
                .expect("a word of 16 bits")
                .to_be_bytes()
        })
        .collect()
}

pub fn archive_length(pages: usize, nodes: usize) -> usize {
    FIRST.length(pages, nodes)
}

pub fn archive_bytes(tree: &Tree, marks: &[u8]) -> Vec<u8> {
    FIRST.bytes(tree, marks)
}

pub fn write_archive(table: &[u8], marks: &[u8], archive: &mut [u8]) -> Answer {
    FIRST.write(table, marks, archive)
}

pub fn read_archive(archive: &[u8], table: &mut [u8], marks: &mut [u8]) -> Answer {
    FIRST.read(archive, table, marks)
}

pub fn write_archive2(table: &[u8], marks: &[u8], archive: &mut [u8]) -> Answer {
    SECOND.write(table, marks, archive)
}

pub fn read_archive2(archive: &[u8], table: &mut [u8], marks: &mut [u8]) -> Answer {
    SECOND.read(archive, table, marks)
}

pub fn convert_to_2(archive: &[u8], out: &mut [u8]) -> Answer {
    FIRST.convert(archive, out)
}

pub fn convert_to_1(archive: &[u8], out: &mut [u8]) -> Answer {
    SECOND.convert(archive, out)
}
