//! The report's DHW as published (its Fig. 7): each entry of a node's table, by start s and children
//! up to j, goes through all its candidates, and each candidate orders its own interval's nodes.
//!
//! Where the figure leaves room, the faster reading is taken: the nodes are ordered only for an
//! interval over the limit, as the text beside the figure says. The root weight of a nearly optimal
//! partitioning is read off its entry less what the start was raised by; otherwise the result would
//! not be optimal. Weights may be 0 here, so the figure's cap of K nodes an interval is left out,
//! and an interval ends past the limit, not on reaching it.

use crate::planner::Answer;
use crate::tree::Tree;
use std::cmp::Reverse;

/// Which entries are computed.
#[derive(Clone, Copy, PartialEq, Eq)]
pub enum Entries {
    /// Every start, in the loops of Fig. 7.
    All,
    /// Those asked for, and remembered (the report's section 3.2.3).
    OnDemand,
}

pub fn plan(table: &[u8], marks: &mut [u8], entries: Entries) -> Answer {
    let tree = match Tree::read(table) {
        Ok(tree) => tree,
        Err(refusal) => return refusal,
    };
    let mut nodes: Vec<Node> = Vec::with_capacity(tree.count());
    // The last node comes first, so that children come before their parents.
    for number in (1..=tree.count()).rev() {
        let seen = |child: usize| nodes[tree.count() - child].seen;
        let children = tree.children(number).map(seen).collect();
        nodes.push(Node::filled(&tree, number, children, entries));
    }
    nodes.reverse();
    lay(&tree, &nodes, marks);
    tree.judge(marks)
}

/// A node as its parent sees it: the root weight of its optimal partitioning, and what the nearly
/// optimal one takes off.
#[derive(Clone, Copy)]
struct Child {
    weight: u32,
    gain: u32,
}

#[derive(Clone, Copy)]
struct Entry {
    card: u32,
    weight: u32,
    /// The interval of children `begin` up to `end`, excluded; empty where there is none.
    begin: u16,
    end: u16,
    /// The index of its set of nearly optimal nodes.
    nearly_optimal: u32,
    /// Start and j of the entry with the next interval.
    next: (u16, u16),
}

impl Entry {
    /// An entry without intervals. The figure begins counts at 1, which changes no comparison.
    fn empty(card: u32, weight: u32) -> Entry {
        Entry {
            card,
            weight,
            begin: 0,
            end: 0,
            nearly_optimal: 0,
            next: (0, 0),
        }
    }

    fn beats(&self, other: &Entry) -> bool {
        (self.card, self.weight) < (other.card, other.weight)
    }
}

struct Node {
    weight: usize,
    limit: usize,
    children: Vec<Child>,
    seen: Child,
    second_start: usize,
    /// Entries by j, one row for each start that was asked for. An entry needs the one before it
    /// in its row, so a row is filled from its beginning.
    rows: Vec<Vec<Entry>>,
    /// By start: the number of its row, from 1; 0 where there is none yet.
    row_at: Vec<u16>,
    sets: Vec<Vec<u16>>,
}

impl Node {
    fn filled(tree: &Tree, number: usize, children: Vec<Child>, entries: Entries) -> Node {
        let (weight, limit) = (tree.weight[number] as usize, tree.limit);
        let mut node = Node {
            weight,
            limit,
            // What a leaf has; it needs no table.
            seen: Child {
                weight: weight as u32,
                gain: 0,
            },
            second_start: limit + 1,
            rows: vec![],
            row_at: vec![],
            sets: vec![vec![]],
            children,
        };
        if !node.children.is_empty() {
            node.row_at = vec![0; limit + 1];
            if entries == Entries::All {
                node.fill_all();
            }
            node.see();
        }
        node
    }

    fn fill_all(&mut self) {
        for j in 1..=self.children.len() {
            for start in self.weight..=self.limit {
                self.fill(start, j);
            }
        }
    }

    /// Notes what the parent needs.
    fn see(&mut self) {
        let all = self.children.len();
        let weight = self.fill(self.weight, all).weight;
        let raised = self.limit + 1 - weight as usize;
        self.seen.weight = weight;
        self.second_start = self.weight + raised;
        if self.second_start <= self.limit {
            let second = self.fill(self.second_start, all).weight - raised as u32;
            self.seen.gain = weight - second;
        }
    }

    fn row(&mut self, start: usize) -> usize {
        if self.row_at[start] == 0 {
            self.rows.push(vec![Entry::empty(0, start as u32)]);
            self.row_at[start] = self.rows.len() as u16;
        }
        usize::from(self.row_at[start]) - 1
    }

    fn entry(&self, start: usize, j: usize) -> Entry {
        self.rows[usize::from(self.row_at[start]) - 1][j]
    }

    /// The entry at a start and j, computed with all it needs unless it is there.
    fn fill(&mut self, start: usize, j: usize) -> Entry {
        let row = self.row(start);
        for j in self.rows[row].len()..=j {
            let stayed = start + self.children[j - 1].weight as usize;
            let staying = match stayed <= self.limit {
                true => self.fill(stayed, j - 1),
                false => Entry::empty(u32::MAX, 0),
            };
            let entry = self.choose(start, row, j, staying);
            self.rows[row].push(entry);
        }
        self.rows[row][j]
    }

    /// The best of the last child staying and all intervals that end in it.
    fn choose(&mut self, start: usize, row: usize, j: usize, staying: Entry) -> Entry {
        let limit = self.limit as u32;
        let mut chosen = staying;
        let mut chosen_set = vec![];
        let (mut sum, mut gains) = (0, 0);
        for begin in (0..j).rev() {
            sum += self.children[begin].weight;
            gains += self.children[begin].gain;
            if sum - gains > limit {
                break;
            }
            let before = self.rows[row][begin];
            let set = self.nearly_optimal(begin, j, sum);
            let candidate = Entry {
                card: before.card + 1 + set.len() as u32,
                weight: before.weight,
                begin: begin as u16,
                end: j as u16,
                nearly_optimal: 0,
                next: (start as u16, begin as u16),
            };
            if candidate.beats(&chosen) {
                (chosen, chosen_set) = (candidate, set);
            }
        }
        if !chosen_set.is_empty() {
            chosen.nearly_optimal = self.sets.len() as u32;
            self.sets.push(chosen_set);
        }
        chosen
    }

    /// The nodes of an interval, largest gain first, until the sum is within the limit.
    fn nearly_optimal(&self, begin: usize, end: usize, mut sum: u32) -> Vec<u16> {
        if sum as usize <= self.limit {
            return vec![];
        }
        let gain = |child: u16| self.children[usize::from(child)].gain;
        let mut ordered: Vec<u16> = (begin as u16..end as u16).collect();
        ordered.sort_unstable_by_key(|&child| (Reverse(gain(child)), child));
        let mut taken = 0;
        while sum as usize > self.limit {
            sum -= gain(ordered[taken]);
            taken += 1;
        }
        ordered.truncate(taken);
        ordered
    }
}

/// Follows the chains of intervals from the root down.
fn lay(tree: &Tree, nodes: &[Node], marks: &mut [u8]) {
    marks.fill(0);
    marks[0] = 1;
    let mut second = vec![false; nodes.len() + 1];
    for (number, node) in (1..).zip(nodes) {
        if node.children.is_empty() {
            continue;
        }
        let numbers: Vec<usize> = tree.children(number).collect();
        let start = match second[number] {
            true => node.second_start,
            false => node.weight,
        };
        let mut entry = node.entry(start, numbers.len());
        while entry.begin < entry.end {
            let interval = usize::from(entry.begin)..usize::from(entry.end);
            for &child in &numbers[interval] {
                marks[child - 1] = 2;
            }
            marks[numbers[usize::from(entry.begin)] - 1] = 1;
            for &child in &node.sets[entry.nearly_optimal as usize] {
                second[numbers[usize::from(child)]] = true;
            }
            entry = node.entry(usize::from(entry.next.0), usize::from(entry.next.1));
        }
    }
}
