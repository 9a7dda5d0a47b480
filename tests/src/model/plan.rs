//! Plans, pages and the judge: refusals 8, 10 and 11.

use super::{read, Answer, Tree};

/// A page: its run from first to last sibling, and all its nodes in rising order.
#[derive(Clone, Debug, PartialEq, Eq)]
pub struct Page {
    pub first: usize,
    pub last: usize,
    pub weight: u32,
    pub nodes: Vec<usize>,
}

/// The first node whose mark is not allowed.
fn bad_mark(tree: &Tree, marks: &[u8]) -> Option<usize> {
    tree.nodes().find(|&node| {
        let allowed = match marks[node - 1] {
            0 => node != 1,
            1 => true,
            2 => match tree.before[node] {
                Some(sibling) => marks[sibling - 1] == 1 || marks[sibling - 1] == 2,
                None => false,
            },
            _ => false,
        };
        !allowed
    })
}

/// The pages of a plan whose marks are all allowed, in the order of their first nodes.
pub fn pages(tree: &Tree, marks: &[u8]) -> Vec<Page> {
    let mut pages: Vec<Page> = vec![];
    let mut page_of = vec![0; tree.node_count() + 1];
    for node in tree.nodes() {
        // Parents and earlier siblings have lower numbers, so their pages are known.
        page_of[node] = match marks[node - 1] {
            0 => page_of[tree.parents[node]],
            1 => {
                pages.push(Page {
                    first: node,
                    last: node,
                    weight: 0,
                    nodes: vec![],
                });
                pages.len() - 1
            }
            _ => {
                let page = page_of[tree.before[node].expect("a sibling before a 2")];
                pages[page].last = node;
                page
            }
        };
        let page = &mut pages[page_of[node]];
        page.nodes.push(node);
        page.weight += tree.weights[node];
    }
    pages
}

/// Page count and root weight of a plan of the right length, or refusal 10 or 11.
pub fn verdict(tree: &Tree, marks: &[u8]) -> Answer {
    if let Some(node) = bad_mark(tree, marks) {
        return Answer::refused(10, node);
    }
    let pages = pages(tree, marks);
    match pages.iter().position(|page| page.weight > tree.limit) {
        Some(index) => Answer::refused(11, index + 1),
        None => Answer::accepted(pages.len(), pages[0].weight),
    }
}

pub fn judge(table: &[u8], marks: &[u8]) -> Answer {
    match read(table) {
        Err(refusal) => refusal,
        Ok(tree) if marks.len() != tree.node_count() => Answer::refused(8, tree.node_count()),
        Ok(tree) => verdict(&tree, marks),
    }
}
