//! The level planner (GHDW) and the best planner (DHW) in the library's loop order: what a run costs
//! is found once, and then all starts are relaxed in one sweep.

use crate::tree::Tree;

/// An entry is one word, its count above its rest, so that the smaller word is the better entry.
const PAGE: u32 = 1 << 16;
const REST: u32 = PAGE - 1;

/// A candidate that every other beats.
const NONE: u32 = u32::MAX;

pub fn level(tree: &Tree, marks: &mut [u8], scratch: &mut [u32]) {
    Columns::filled(tree, scratch, false).lay(marks);
}

pub fn best(tree: &Tree, marks: &mut [u8], scratch: &mut [u32]) {
    Columns::filled(tree, scratch, true).lay(marks);
}

/// A node as its parent sees it.
#[derive(Clone, Copy, Default)]
struct Figures {
    /// The rest weight under its best plan.
    rest: u32,
    /// What its second plan takes off that.
    gain: u32,
    second_start: usize,
}

/// Each node's part of the scratch holds the entries by start after the children up to it, and
/// then the choices that led to them: 0 where it stays, else the length of the run that ends in it.
struct Columns<'a> {
    tree: &'a Tree,
    scratch: &'a mut [u32],
    figures: Vec<Figures>,
}

impl<'a> Columns<'a> {
    fn filled(tree: &'a Tree, scratch: &'a mut [u32], with_gains: bool) -> Columns<'a> {
        let figures = vec![Figures::default(); tree.count() + 1];
        let mut columns = Columns {
            tree,
            scratch,
            figures,
        };
        let mut run = Run::new(tree.limit);
        for node in (1..=tree.count()).rev() {
            for child in tree.children(node) {
                columns.fill(child, &mut run);
            }
            columns.figures[node] = columns.figures_of(node, with_gains);
        }
        columns
    }

    /// Where the part of a node begins.
    fn part(&self, node: usize) -> usize {
        4 * (self.tree.limit + 3) * (node - 1)
    }

    /// The rest of a node's entry at a start, after all its children.
    fn rest_at(&self, node: usize, start: usize) -> u32 {
        match self.tree.last[node] {
            0 => start as u32,
            last => self.scratch[self.part(last) + start] & REST,
        }
    }

    fn figures_of(&self, node: usize, with_gains: bool) -> Figures {
        let (weight, limit) = (self.tree.weight[node] as usize, self.tree.limit);
        let rest = self.rest_at(node, weight);
        let raised = limit + 1 - rest as usize;
        let second_start = weight + raised;
        let gain = match with_gains && second_start <= limit {
            true => rest - (self.rest_at(node, second_start) - raised as u32),
            false => 0,
        };
        Figures {
            rest,
            gain,
            second_start,
        }
    }

    /// Fills the column of a child whose earlier siblings have theirs.
    fn fill(&mut self, child: usize, run: &mut Run) {
        self.let_stay(child);
        run.clear();
        // The sibling just left of the run. Only past the limit does no longer run fit: on reaching
        // it, siblings that add nothing may follow.
        let mut left = child;
        while left != 0 && run.lightest() <= self.tree.limit as u32 {
            run.add(self.figures[left]);
            left = self.tree.before[left];
            if let Some(taken) = run.seconds_taken() {
                self.relax(child, left, run.length, PAGE * (1 + taken));
            }
        }
    }

    /// The child's column, from the weight of its parent to the limit, and what comes before it in
    /// the scratch.
    fn column(&mut self, child: usize) -> (&mut [u32], &mut [u32], &[u32]) {
        let starts = self.tree.weight[self.tree.parent[child]] as usize..self.tree.limit + 1;
        let part = self.part(child);
        let (earlier, own) = self.scratch.split_at_mut(part);
        let (entries, choices) = own.split_at_mut(self.tree.limit + 1);
        (&mut entries[starts.clone()], &mut choices[starts], earlier)
    }

    /// The first candidate at each start.
    fn let_stay(&mut self, child: usize) {
        let rest = self.figures[child].rest as usize;
        let weight = self.tree.weight[self.tree.parent[child]] as usize;
        let before = self.tree.before[child];
        let from = self.part(before.max(1)) + weight + rest;
        let (entries, choices, earlier) = self.column(child);
        choices.fill(0);
        let (fitting, others) = entries.split_at_mut(entries.len().saturating_sub(rest));
        others.fill(NONE);
        if before == 0 {
            for (entry, start) in fitting.iter_mut().zip(weight + rest..) {
                *entry = start as u32;
            }
        } else {
            fitting.copy_from_slice(&earlier[from..from + fitting.len()]);
        }
    }

    /// Offers a run to each start, after the entries of the sibling before it.
    fn relax(&mut self, child: usize, before: usize, length: u32, cost: u32) {
        let weight = self.tree.weight[self.tree.parent[child]];
        let from = self.part(before.max(1)) + weight as usize;
        let (entries, choices, earlier) = self.column(child);
        let count = entries.len();
        if before == 0 {
            let candidates = (weight..weight + count as u32).map(|start| start + cost);
            sweep(entries, choices, length, candidates);
        } else {
            let candidates = earlier[from..from + count].iter().map(|entry| entry + cost);
            sweep(entries, choices, length, candidates);
        }
    }

    /// Lays the marks from the root down.
    fn lay(&self, marks: &mut [u8]) {
        marks.fill(0);
        marks[0] = 1;
        let mut second = vec![false; self.tree.count() + 1];
        for node in 1..=self.tree.count() {
            let mut start = match second[node] {
                true => self.figures[node].second_start,
                false => self.tree.weight[node] as usize,
            };
            let mut child = self.tree.last[node];
            while child != 0 {
                let choice = self.scratch[self.part(child) + self.tree.limit + 1 + start];
                if choice == 0 {
                    start += self.figures[child].rest as usize;
                    child = self.tree.before[child];
                } else {
                    child = self.lay_run(child, choice, marks, &mut second);
                }
            }
        }
    }

    /// Lays a run that ends in a node, and gives the sibling before it.
    fn lay_run(&self, last: usize, length: u32, marks: &mut [u8], second: &mut [bool]) -> usize {
        let mut first = last;
        let mut sum = self.figures[last].rest;
        for _ in 1..length {
            marks[first - 1] = 2;
            first = self.tree.before[first];
            sum += self.figures[first].rest;
        }
        marks[first - 1] = 1;
        while sum as usize > self.tree.limit {
            let node = self.largest_gain(first, last, second);
            second[node] = true;
            sum -= self.figures[node].gain;
        }
        self.tree.before[first]
    }

    /// The earliest node of a run with the largest gain that is not taken.
    fn largest_gain(&self, first: usize, last: usize, second: &[bool]) -> usize {
        let (mut node, mut largest, mut gain) = (first, 0, 0);
        while node != 0 && node <= last {
            if !second[node] && self.figures[node].gain > gain {
                (largest, gain) = (node, self.figures[node].gain);
            }
            node = self.tree.next[node];
        }
        largest
    }
}

/// A later candidate wins only where it is smaller. The choice is set through a mask and not by a
/// branch, so that the compiler treats several starts at once.
fn sweep(
    entries: &mut [u32],
    choices: &mut [u32],
    length: u32,
    candidates: impl Iterator<Item = u32>,
) {
    for ((entry, choice), candidate) in entries.iter_mut().zip(choices).zip(candidates) {
        let wins = u32::from(candidate < *entry).wrapping_neg();
        *choice ^= (*choice ^ length) & wins;
        *entry = candidate.min(*entry);
    }
}

/// A run that is stretched to the left. How many of its nodes have each gain tells how many second
/// plans it takes, without sorting.
struct Run {
    limit: u32,
    length: u32,
    sum: u32,
    gains: u32,
    largest: usize,
    with_gain: Vec<u32>,
}

impl Run {
    fn new(limit: usize) -> Run {
        Run {
            limit: limit as u32,
            length: 0,
            sum: 0,
            gains: 0,
            largest: 0,
            with_gain: vec![0; limit + 1],
        }
    }

    fn clear(&mut self) {
        self.with_gain[..=self.largest].fill(0);
        (self.length, self.sum, self.gains, self.largest) = (0, 0, 0, 0);
    }

    fn add(&mut self, node: Figures) {
        self.length += 1;
        self.sum += node.rest;
        self.gains += node.gain;
        self.largest = self.largest.max(node.gain as usize);
        self.with_gain[node.gain as usize] += 1;
    }

    fn lightest(&self) -> u32 {
        self.sum - self.gains
    }

    /// How many second plans bring the run down to the limit; none if they never do.
    fn seconds_taken(&self) -> Option<u32> {
        let mut over = self.sum.saturating_sub(self.limit);
        if over == 0 {
            return Some(0);
        }
        let mut taken = 0;
        for gain in (1..=self.largest).rev() {
            let (enough, there) = (over.div_ceil(gain as u32), self.with_gain[gain]);
            if enough <= there {
                return Some(taken + enough);
            }
            taken += there;
            over -= there * gain as u32;
        }
        None
    }
}
