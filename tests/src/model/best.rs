//! The best planner (DHW) and the level planner (GHDW).

use super::Tree;

pub fn best(tree: &Tree) -> Vec<u8> {
    lay(tree, &entries_of_all(tree, true))
}

pub fn level(tree: &Tree) -> Vec<u8> {
    lay(tree, &entries_of_all(tree, false))
}

#[derive(Clone, Copy)]
enum Choice {
    /// The entry for no children.
    None,
    /// The last child stays.
    Stay,
    /// The last so many children are a run.
    Run(u16),
}

#[derive(Clone, Copy)]
struct Entry {
    count: u32,
    rest: u32,
    choice: Choice,
}

/// What a parent needs to know of a child: the rest weight under its best plan, and the gain.
#[derive(Clone, Copy)]
struct Child {
    rest: u32,
    gain: u32,
}

/// A node with all its entries.
struct Node {
    weight: u32,
    limit: u32,
    /// By the limit less the start, then by j.
    entries: Vec<Vec<Entry>>,
    /// As its parent sees it.
    seen: Child,
    children: Vec<Child>,
}

impl Node {
    fn entry(&self, start: u32, j: usize) -> Entry {
        self.entries[(self.limit - start) as usize][j]
    }

    fn last_entry(&self, start: u32) -> Entry {
        self.entry(start, self.children.len())
    }

    /// The start of the second plan; it may lie above the limit.
    fn second_start(&self) -> u32 {
        self.weight + self.limit - self.last_entry(self.weight).rest + 1
    }
}

/// The nodes by number. Index 0 is not a node.
fn entries_of_all(tree: &Tree, with_gains: bool) -> Vec<Option<Node>> {
    let mut nodes: Vec<Option<Node>> = (0..=tree.node_count()).map(|_| None).collect();
    for number in tree.nodes().rev() {
        let children = tree.children[number]
            .iter()
            .map(|&child| nodes[child].as_ref().expect("children come first").seen)
            .collect();
        nodes[number] = Some(entries_of_one(
            tree.weights[number],
            children,
            tree.limit,
            with_gains,
        ));
    }
    nodes
}

fn entries_of_one(weight: u32, children: Vec<Child>, limit: u32, with_gains: bool) -> Node {
    // For j = 1, 2, .. They are the same for every start.
    let runs: Vec<Vec<Option<u32>>> = (1..=children.len())
        .map(|j| runs_ending_at(&children[..j], limit))
        .collect();
    let seen = Child { rest: 0, gain: 0 };
    let mut node = Node {
        weight,
        limit,
        entries: vec![],
        seen,
        children,
    };
    // A child that stays leads to an entry at a higher start or, with no rest, at the same one.
    for start in (weight..=limit).rev() {
        let mut row = vec![Entry {
            count: 0,
            rest: start,
            choice: Choice::None,
        }];
        for runs in &runs {
            row.push(choose(&node, start, &row, runs));
        }
        node.entries.push(row);
    }

    let rest = node.last_entry(weight).rest;
    let second = node.second_start();
    let gain = if with_gains && second <= limit {
        let true_rest = node.last_entry(second).rest - (limit - rest + 1);
        rest - true_rest
    } else {
        0
    };
    node.seen = Child { rest, gain };
    node
}

/// The next entry at a start, after those at the same start for fewer children.
fn choose(node: &Node, start: u32, row: &[Entry], runs: &[Option<u32>]) -> Entry {
    let j = row.len();
    // Every candidate has a smaller count than this.
    let mut chosen = Entry {
        count: u32::MAX,
        rest: 0,
        choice: Choice::None,
    };
    let mut offer = |candidate: Entry| {
        if (candidate.count, candidate.rest) < (chosen.count, chosen.rest) {
            chosen = candidate;
        }
    };
    let stayed = start + node.children[j - 1].rest;
    if stayed <= node.limit {
        // A child with no rest leads to this very row, which the node does not have yet.
        let before = match stayed == start {
            true => row[j - 1],
            false => node.entry(stayed, j - 1),
        };
        offer(Entry {
            choice: Choice::Stay,
            ..before
        });
    }
    for (index, run) in runs.iter().enumerate() {
        if let Some(taken) = run {
            let length = index + 1;
            let before = row[j - length];
            offer(Entry {
                count: before.count + 1 + taken,
                rest: before.rest,
                choice: Choice::Run(length as u16),
            });
        }
    }
    chosen
}

/// The runs of the last 1, 2, .. children: how many second plans each takes, or none where it is
/// no candidate. Stretching stops only once the lightest total, the sum of rests less the sum of
/// gains, passes the limit (request Three; document 01 stopped on reaching it). So a run has any
/// number of children that add nothing.
fn runs_ending_at(children: &[Child], limit: u32) -> Vec<Option<u32>> {
    let mut runs = vec![];
    let mut lightest = 0;
    for first in (0..children.len()).rev() {
        runs.push(seconds_taken(&children[first..], limit).map(|taken| taken.len() as u32));
        lightest += children[first].rest - children[first].gain;
        if lightest > limit {
            break;
        }
    }
    runs
}

/// The children of a run, by position, that follow their second plans; none if the run never comes
/// down to the limit.
fn seconds_taken(run: &[Child], limit: u32) -> Option<Vec<usize>> {
    let mut sum: u32 = run.iter().map(|child| child.rest).sum();
    if sum <= limit {
        return Some(vec![]);
    }
    let mut gainers: Vec<usize> = (0..run.len())
        .filter(|&place| run[place].gain > 0)
        .collect();
    // This sort keeps the order of equals.
    gainers.sort_by_key(|&place| std::cmp::Reverse(run[place].gain));
    let mut taken = vec![];
    for place in gainers {
        sum -= run[place].gain;
        taken.push(place);
        if sum <= limit {
            return Some(taken);
        }
    }
    None
}

/// Lays the marks from the root down.
fn lay(tree: &Tree, nodes: &[Option<Node>]) -> Vec<u8> {
    let mut marks = vec![1; tree.node_count()];
    let mut second = vec![false; tree.node_count() + 1];
    for number in tree.nodes() {
        let node = nodes[number].as_ref().expect("every node has entries");
        let mut start = if second[number] {
            node.second_start()
        } else {
            node.weight
        };
        let mut j = node.children.len();
        while j > 0 {
            match node.entry(start, j).choice {
                Choice::None => unreachable!("there are children left"),
                Choice::Stay => {
                    marks[tree.children[number][j - 1] - 1] = 0;
                    start += node.children[j - 1].rest;
                    j -= 1;
                }
                Choice::Run(length) => {
                    let first = j - usize::from(length);
                    let run = &tree.children[number][first..j];
                    for (place, &child) in run.iter().enumerate() {
                        marks[child - 1] = if place == 0 { 1 } else { 2 };
                    }
                    let taken = seconds_taken(&node.children[first..j], tree.limit);
                    for place in taken.expect("a chosen run is a candidate") {
                        second[run[place]] = true;
                    }
                    j = first;
                }
            }
        }
    }
    marks
}
