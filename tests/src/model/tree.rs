//! The tree table and its reader: refusals 1 to 4, 6, 7 and 14.

use super::Answer;

/// The most nodes of a table (request Five; document 01 had 1,024, which the archive keeps).
pub const MAX_NODES: usize = 2048;
pub const MAX_LIMIT: usize = 1024;

/// A tree of sound form, or one that would be if labels could be 0. The lists are indexed by node
/// number; index 0 is not a node.
#[derive(Clone, Debug, PartialEq, Eq)]
pub struct Tree {
    pub limit: u32,
    pub weights: Vec<u32>,
    pub labels: Vec<u32>,
    /// Zero for node 1.
    pub parents: Vec<usize>,
    pub children: Vec<Vec<usize>>,
    /// The sibling just before.
    pub before: Vec<Option<usize>>,
    /// The sibling just after.
    pub after: Vec<Option<usize>>,
}

impl Tree {
    pub fn node_count(&self) -> usize {
        self.weights.len() - 1
    }

    pub fn nodes(&self) -> std::ops::RangeInclusive<usize> {
        1..=self.node_count()
    }
}

/// The word at a word index: 16 bits, high byte first.
pub fn word(bytes: &[u8], index: usize) -> usize {
    usize::from(bytes[2 * index]) * 256 + usize::from(bytes[2 * index + 1])
}

struct Record {
    weight: usize,
    label: usize,
    first_child: usize,
    next_sibling: usize,
}

/// The tree of an accepted table, or the refusal.
pub fn read(table: &[u8]) -> Result<Tree, Answer> {
    within_limit(read_sound(table)?)
}

/// The same without 14. The archive reader judges film by this, as it did before labels of 0 were
/// refused, so that film that carries one can still be opened.
pub fn read_as_before(table: &[u8]) -> Result<Tree, Answer> {
    let (limit, records) = read_records(table)?;
    within_limit(link(limit, &records)?)
}

/// The tree of a table of sound form, also where a node outweighs the limit, or the refusal: those
/// that are checked before 7.
pub fn read_sound(table: &[u8]) -> Result<Tree, Answer> {
    let (limit, records) = read_records(table)?;
    match records.iter().position(|record| record.label == 0) {
        Some(index) => Err(Answer::refused(14, index + 1)),
        None => link(limit, &records),
    }
}

/// The limit and the records of a table, or refusals 1 to 4. A weight of 0 is like any other: 5,
/// which refused it, is given by nothing (request Three).
fn read_records(table: &[u8]) -> Result<(usize, Vec<Record>), Answer> {
    if table.len() < 4 {
        return Err(Answer::refused(1, 0));
    }
    let count = word(table, 0);
    if count == 0 || count > MAX_NODES {
        return Err(Answer::refused(2, count));
    }
    let limit = word(table, 1);
    if limit == 0 || limit > MAX_LIMIT {
        return Err(Answer::refused(3, limit));
    }
    let length = 4 + 8 * count;
    if table.len() != length {
        return Err(Answer::refused(4, length));
    }
    let records = (0..count)
        .map(|index| Record {
            weight: word(table, 2 + 4 * index),
            label: word(table, 3 + 4 * index),
            first_child: word(table, 4 + 4 * index),
            next_sibling: word(table, 5 + 4 * index),
        })
        .collect();
    Ok((limit, records))
}

/// The tree of records, or refusal 6.
fn link(limit: usize, records: &[Record]) -> Result<Tree, Answer> {
    match walk(records) {
        Ok(()) => Ok(build(limit, records)),
        Err(place) => Err(Answer::refused(6, place)),
    }
}

/// The tree, or refusal 7.
fn within_limit(tree: Tree) -> Result<Tree, Answer> {
    match tree.nodes().find(|&node| tree.weights[node] > tree.limit) {
        Some(node) => Err(Answer::refused(7, node)),
        None => Ok(tree),
    }
}

pub fn read_tree(table: &[u8]) -> Answer {
    match read(table) {
        Ok(_) => Answer::ACCEPTED,
        Err(refusal) => refusal,
    }
}

/// Walks the chains, child before sibling. A failed walk gives the place of refusal 6.
fn walk(records: &[Record]) -> Result<(), usize> {
    if records[0].next_sibling != 0 {
        return Err(0);
    }
    let mut met = 0;
    // The last one is visited next. Zeros are kept and passed over.
    let mut waiting = vec![1];
    while let Some(node) = waiting.pop() {
        if node == 0 {
            continue;
        }
        if node != met + 1 || node > records.len() {
            return Err(met);
        }
        met = node;
        waiting.push(records[node - 1].next_sibling);
        waiting.push(records[node - 1].first_child);
    }
    if met == records.len() {
        Ok(())
    } else {
        Err(met)
    }
}

/// The tree of records that the walk accepts.
fn build(limit: usize, records: &[Record]) -> Tree {
    let mut tree = Tree {
        limit: limit as u32,
        weights: vec![0],
        labels: vec![0],
        parents: vec![0; records.len() + 1],
        children: vec![vec![]],
        before: vec![None; records.len() + 1],
        after: vec![None; records.len() + 1],
    };
    for (index, record) in records.iter().enumerate() {
        tree.weights.push(record.weight as u32);
        tree.labels.push(record.label as u32);
        let mut chain = vec![];
        let mut child = record.first_child;
        while child != 0 {
            tree.parents[child] = index + 1;
            if let Some(&before) = chain.last() {
                tree.before[child] = Some(before);
                tree.after[before] = Some(child);
            }
            chain.push(child);
            child = records[child - 1].next_sibling;
        }
        tree.children.push(chain);
    }
    tree
}
