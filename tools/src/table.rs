//! The tree table: N, K and N records of weight, label, first child and next sibling, in words of
//! 16 bits, high byte first.

use crate::tree::Tree;
use balduqen::{MAX_LIMIT, MAX_NODES};

struct Record {
    weight: u32,
    label: u32,
    first_child: usize,
    next_sibling: usize,
}

pub fn write(tree: &Tree) -> Vec<u8> {
    let mut words = vec![tree.count() as u32, tree.limit];
    for number in tree.numbers() {
        let node = tree.node(number);
        words.extend([node.weight, node.label]);
        words.extend([node.first_child, node.next_sibling].map(|link| link as u32));
    }
    words.into_iter().flat_map(word_bytes).collect()
}

fn word_bytes(word: u32) -> [u8; 2] {
    let word = u16::try_from(word).expect("a tree's numbers are words");
    word.to_be_bytes()
}

fn word(table: &[u8], index: usize) -> u32 {
    u32::from(table[2 * index]) << 8 | u32::from(table[2 * index + 1])
}

/// Takes a tree with a node heavier than the limit too: the form is sound, and no plan holds it.
pub fn read(table: &[u8]) -> Result<Tree, String> {
    let (count, limit) = read_head(table)?;
    let records: Vec<Record> = (0..count).map(|index| record(table, index)).collect();
    let mut tree = Tree::new(limit);
    for (record, depth) in records.iter().zip(walk(&records)?) {
        tree.add(depth, record.weight, record.label);
    }
    Ok(tree)
}

fn read_head(table: &[u8]) -> Result<(usize, u32), String> {
    let length = table.len();
    if length < 4 {
        return Err(format!("{length} bytes are too few for a table"));
    }
    let (count, limit) = (word(table, 0) as usize, word(table, 1));
    if count == 0 || count > MAX_NODES {
        return Err(format!("{count} nodes; a tree has 1 to {MAX_NODES}"));
    }
    if limit == 0 || limit as usize > MAX_LIMIT {
        return Err(format!("limit {limit} is not in 1 to {MAX_LIMIT}"));
    }
    let right = 4 + 8 * count;
    if length != right {
        return Err(format!(
            "{length} bytes; a table of {count} nodes has {right}"
        ));
    }
    Ok((count, limit))
}

fn record(table: &[u8], index: usize) -> Record {
    let field = |at| word(table, 2 + 4 * index + at);
    Record {
        weight: field(0),
        label: field(1),
        first_child: field(2) as usize,
        next_sibling: field(3) as usize,
    }
}

/// The depth of each node, if the chains from node 1, child before sibling, meet 1, 2, .., N.
fn walk(records: &[Record]) -> Result<Vec<usize>, String> {
    let sibling = records[0].next_sibling;
    if sibling != 0 {
        return Err(format!("node 1 has node {sibling} as its next sibling"));
    }
    let mut depths = vec![];
    // The last one is visited next. Zeros end a chain.
    let mut waiting = vec![(1, 0)];
    while let Some((node, depth)) = waiting.pop() {
        if node == 0 {
            continue;
        }
        let met = depths.len();
        if node != met + 1 || node > records.len() {
            return Err(format!("the walk goes from node {met} to node {node}"));
        }
        depths.push(depth);
        waiting.push((records[met].next_sibling, depth));
        waiting.push((records[met].first_child, depth + 1));
    }
    match depths.len() {
        met if met < records.len() => Err(format!("the walk ends after node {met}")),
        _ => Ok(depths),
    }
}

#[cfg(test)]
mod tests {
    use super::*;
    use crate::tree::tests::{case_e, random_tree};

    const E: &[u8] = include_bytes!("../samples/e.table");

    fn fault(table: &[u8]) -> String {
        read(table).expect_err("a bad table")
    }

    /// Case E with another word at an index.
    fn changed(index: usize, word: u32) -> Vec<u8> {
        let mut table = write(&case_e());
        table[2 * index..2 * index + 2].copy_from_slice(&word_bytes(word));
        table
    }

    /// The index of a field of a node's record.
    fn field(node: usize, at: usize) -> usize {
        2 + 4 * (node - 1) + at
    }

    #[test]
    fn case_e_both_ways() {
        let words: [u32; 26] = [
            6, 5, 5, 1, 2, 0, 2, 2, 0, 3, 1, 3, 4, 6, 2, 4, 0, 5, 2, 5, 0, 0, 1, 6, 0, 0,
        ];
        let bytes: Vec<u8> = words.into_iter().flat_map(word_bytes).collect();
        assert_eq!(write(&case_e()), bytes);
        assert_eq!(E, bytes);
        assert_eq!(read(E), Ok(case_e()));
    }

    #[test]
    fn reads_what_it_writes() {
        for seed in 0..200 {
            let tree = random_tree(seed, 1 + seed as usize % 70);
            assert_eq!(read(&write(&tree)), Ok(tree));
        }
        let most = random_tree(1, MAX_NODES);
        assert_eq!(read(&write(&most)), Ok(most));
    }

    #[test]
    fn bad_heads() {
        assert_eq!(fault(&[0, 1]), "2 bytes are too few for a table");
        assert_eq!(fault(&[0, 0, 0, 5]), "0 nodes; a tree has 1 to 2048");
        assert_eq!(fault(&changed(0, 2049)), "2049 nodes; a tree has 1 to 2048");
        assert_eq!(fault(&changed(1, 0)), "limit 0 is not in 1 to 1024");
        assert_eq!(fault(&changed(1, 1025)), "limit 1025 is not in 1 to 1024");
        assert_eq!(fault(&E[..51]), "51 bytes; a table of 6 nodes has 52");
    }

    #[test]
    fn bad_nodes() {
        let sibling = "node 1 has node 2 as its next sibling";
        assert_eq!(fault(&changed(field(1, 3), 2)), sibling);
        let back = "the walk goes from node 5 to node 3";
        assert_eq!(fault(&changed(field(5, 3), 3)), back);
        let beyond = "the walk goes from node 6 to node 7";
        assert_eq!(fault(&changed(field(6, 3), 7)), beyond);
        let early = "the walk ends after node 5";
        assert_eq!(fault(&changed(field(3, 3), 0)), early);
    }

    #[test]
    fn a_heavy_node_is_read() {
        assert!(read(&changed(1, 4)).is_ok());
    }

    #[test]
    fn a_note_is_read() {
        for number in 1..=6 {
            let tree = read(&changed(field(number, 0), 0)).expect("a tree");
            assert_eq!(tree.node(number).weight, 0);
            assert_eq!(write(&tree), changed(field(number, 0), 0));
        }
    }
}
