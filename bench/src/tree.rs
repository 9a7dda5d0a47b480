//! A tree read from its table, and the pages and the figures of a plan.

use crate::load::MOST_NODES;
use crate::planner::{accepted, Answer};
use std::iter::{once, successors};

const MOST_LIMIT: usize = 1024;

/// Nodes by number; index 0 is no node, and a link of 0 leads nowhere.
pub struct Tree {
    pub limit: usize,
    pub weight: Vec<u32>,
    pub parent: Vec<usize>,
    pub first: Vec<usize>,
    pub last: Vec<usize>,
    pub next: Vec<usize>,
    pub before: Vec<usize>,
}

/// A page: its run from first node to last sibling, and its weight.
pub struct Page {
    pub first: u32,
    pub last: u32,
    pub weight: u32,
}

impl Tree {
    pub fn count(&self) -> usize {
        self.weight.len() - 1
    }

    pub fn children(&self, node: usize) -> impl Iterator<Item = usize> + '_ {
        let follow = |link: usize| (link != 0).then_some(link);
        successors(follow(self.first[node]), move |&child| {
            follow(self.next[child])
        })
    }

    /// The tree of a table, or refusals 1 to 4, 14, 6 and 7, in that order.
    pub fn read(table: &[u8]) -> Result<Tree, Answer> {
        let (count, limit) = read_head(table)?;
        let column = |offset| {
            let words = (0..count).map(move |index| word(table, 2 + 4 * index + offset));
            once(0).chain(words)
        };
        let mut tree = Tree {
            limit,
            weight: column(0).map(|weight| weight as u32).collect(),
            first: column(2).collect(),
            next: column(3).collect(),
            parent: vec![0; count + 1],
            last: vec![0; count + 1],
            before: vec![0; count + 1],
        };
        let mut labels = column(1).enumerate().skip(1);
        if let Some((node, _)) = labels.find(|&(_, label)| label == 0) {
            return Err(Answer::refused(14, node));
        }
        tree.walk().map_err(|met| Answer::refused(6, met))?;
        let mut nodes = 1..=count;
        if let Some(node) = nodes.find(|&node| tree.weight[node] as usize > limit) {
            return Err(Answer::refused(7, node));
        }
        Ok(tree)
    }

    /// Walks the chains from node 1, child before sibling, and notes the links back. An error is
    /// the place of a walk that fails.
    fn walk(&mut self) -> Result<(), usize> {
        if self.next[1] != 0 {
            return Err(0);
        }
        let mut met = 0;
        let mut pending = vec![(1, 0, 0)];
        while let Some((node, parent, before)) = pending.pop() {
            if node == 0 {
                self.last[parent] = before;
                continue;
            }
            if node != met + 1 || node > self.count() {
                return Err(met);
            }
            met = node;
            self.parent[node] = parent;
            self.before[node] = before;
            pending.push((self.next[node], parent, node));
            pending.push((self.first[node], node, 0));
        }
        if met == self.count() {
            Ok(())
        } else {
            Err(met)
        }
    }

    /// The judge's answer for marks that are allowed and within the limit; panics at others, since
    /// no planner makes them.
    pub fn judge(&self, marks: &[u8]) -> Answer {
        accepted(&self.pages(marks))
    }

    /// The pages of such marks, by number.
    pub fn pages(&self, marks: &[u8]) -> Vec<Page> {
        self.pages_and_nodes(marks).0
    }

    /// The same, and the page that each node is on, from 0 on.
    pub fn pages_and_nodes(&self, marks: &[u8]) -> (Vec<Page>, Vec<usize>) {
        let mut page = vec![0; self.count() + 1];
        let mut pages: Vec<Page> = vec![];
        for node in 1..=self.count() {
            page[node] = match marks[node - 1] {
                0 if node > 1 => page[self.parent[node]],
                1 => {
                    pages.push(Page {
                        first: node as u32,
                        last: node as u32,
                        weight: 0,
                    });
                    pages.len() - 1
                }
                2 if self.before[node] != 0 && marks[self.before[node] - 1] != 0 => {
                    let page = page[self.before[node]];
                    pages[page].last = node as u32;
                    page
                }
                mark => panic!("node {node} has mark {mark}"),
            };
            pages[page[node]].weight += self.weight[node];
        }
        assert!(pages.iter().all(|page| page.weight as usize <= self.limit));
        (pages, page)
    }
}

/// The words N and K, or refusals 1 to 4.
fn read_head(table: &[u8]) -> Result<(usize, usize), Answer> {
    if table.len() < 4 {
        return Err(Answer::refused(1, 0));
    }
    let (count, limit) = (word(table, 0), word(table, 1));
    if !(1..=MOST_NODES).contains(&count) {
        return Err(Answer::refused(2, count));
    }
    if !(1..=MOST_LIMIT).contains(&limit) {
        return Err(Answer::refused(3, limit));
    }
    let length = 4 + 8 * count;
    if table.len() != length {
        return Err(Answer::refused(4, length));
    }
    Ok((count, limit))
}

pub fn word(bytes: &[u8], index: usize) -> usize {
    usize::from(u16::from_be_bytes([bytes[2 * index], bytes[2 * index + 1]]))
}
