//! Trees, tables and damaged tables, random ones from fixed seeds and small ones exhaustively.

use crate::model::{pages, read, Edition, Tree, MAX_LIMIT, MAX_NODES};

/// A generator of random numbers (splitmix64). The same seed gives the same numbers.
pub struct Random(u64);

impl Random {
    pub fn new(seed: u64) -> Random {
        Random(seed)
    }

    pub fn number(&mut self) -> u64 {
        self.0 = self.0.wrapping_add(0x9e37_79b9_7f4a_7c15);
        let mut bits = self.0;
        bits = (bits ^ (bits >> 30)).wrapping_mul(0xbf58_476d_1ce4_e5b9);
        bits = (bits ^ (bits >> 27)).wrapping_mul(0x94d0_49bb_1331_11eb);
        bits ^ (bits >> 31)
    }

    /// A number from `low` to `high`, both included.
    pub fn between(&mut self, low: usize, high: usize) -> usize {
        low + (self.number() % (high - low + 1) as u64) as usize
    }

    pub fn byte(&mut self) -> u8 {
        self.number() as u8
    }

    pub fn pick<T: Copy>(&mut self, choices: &[T]) -> T {
        choices[self.between(0, choices.len() - 1)]
    }

    /// True once in so many times.
    pub fn once_in(&mut self, times: usize) -> bool {
        self.between(1, times) == 1
    }

    pub fn bytes(&mut self, length: usize) -> Vec<u8> {
        (0..length).map(|_| self.byte()).collect()
    }
}

/// The shape of a tree: the parent of node 1, 2, .., where node 1 has 0.
pub type Parents = Vec<usize>;

#[derive(Clone, Copy, Debug)]
pub enum Form {
    /// All nodes are children of node 1.
    Flat,
    /// Few levels: each node hangs below any other.
    Bushy,
    /// Long branches.
    Deep,
    /// Each node hangs below the node before it or one of that one's ancestors.
    Mixed,
    /// The children of a node are leaves and branches in turn. With heavy parents, as
    /// `random_table` makes them, second plans are often taken, and seldom in other trees.
    Comb,
}

pub const FORMS: [Form; 5] = [Form::Flat, Form::Bushy, Form::Deep, Form::Mixed, Form::Comb];

/// Each form with each of these numbers of nodes.
pub fn forms_with(counts: &[usize]) -> Vec<(Form, usize)> {
    let of_form = |form| counts.iter().map(move |&count| (form, count));
    FORMS.into_iter().flat_map(of_form).collect()
}

pub fn random_parents(random: &mut Random, form: Form, count: usize) -> Parents {
    if let Form::Bushy = form {
        return bushy_parents(random, count);
    }
    let mut parents = vec![0];
    if let Form::Comb = form {
        add_comb(random, &mut parents, 1, count - 1);
        return parents;
    }
    // From node 1 down to the newest node: those that can have the next one as a child.
    let mut open = vec![1];
    for node in 2..=count {
        let depth = match form {
            Form::Flat => 1,
            Form::Deep if !random.once_in(8) => open.len(),
            _ => random.between(1, open.len()),
        };
        open.truncate(depth);
        parents.push(open[depth - 1]);
        open.push(node);
    }
    parents
}

fn bushy_parents(random: &mut Random, count: usize) -> Parents {
    let mut children = vec![vec![]; count];
    for node in 1..count {
        let parent = random.between(0, node - 1);
        children[parent].push(node);
    }
    // Numbers the nodes anew in the order of the walk.
    let mut parents = vec![];
    let mut waiting = vec![(0, 0)];
    while let Some((node, parent)) = waiting.pop() {
        parents.push(parent);
        let number = parents.len();
        waiting.extend(children[node].iter().rev().map(|&child| (child, number)));
    }
    parents
}

/// Hangs so many nodes below a node.
fn add_comb(random: &mut Random, parents: &mut Parents, node: usize, mut count: usize) {
    let mut is_leaf = true;
    while count > 0 {
        let most = count.min((count / 2).max(3));
        let size = if is_leaf { 1 } else { random.between(1, most) };
        parents.push(node);
        let child = parents.len();
        add_comb(random, parents, child, size - 1);
        count -= size;
        is_leaf = !is_leaf;
    }
}

/// Every shape with so many nodes.
pub fn all_parents(count: usize) -> Vec<Parents> {
    let mut all = vec![vec![0]];
    for node in 2..=count {
        let mut longer = vec![];
        for parents in all {
            let mut parent = node - 1;
            while parent != 0 {
                longer.push([&parents[..], &[parent]].concat());
                parent = parents[parent - 1];
            }
        }
        all = longer;
    }
    all
}

/// Every list of so many weights from the choices.
pub fn all_weights(count: usize, choices: &[u16]) -> Vec<Vec<u16>> {
    let mut all = vec![vec![]];
    for _ in 0..count {
        all = all
            .iter()
            .flat_map(|list| {
                choices
                    .iter()
                    .map(move |&weight| [&list[..], &[weight]].concat())
            })
            .collect();
    }
    all
}

#[derive(Clone, Copy, Debug, PartialEq, Eq)]
pub struct Record {
    pub weight: u16,
    pub label: u16,
    pub first_child: u16,
    pub next_sibling: u16,
}

/// A table before it is encoded, so that a test can change any word. The count is a word of its
/// own and need not be the number of records.
#[derive(Clone, Debug, PartialEq, Eq)]
pub struct Table {
    pub count: u16,
    pub limit: u16,
    pub records: Vec<Record>,
}

impl Table {
    /// A table with node numbers as labels.
    pub fn new(limit: u16, parents: &[usize], weights: &[u16]) -> Table {
        assert_eq!(parents.len(), weights.len());
        let mut records: Vec<Record> = (1..)
            .zip(weights)
            .map(|(label, &weight)| Record {
                weight,
                label,
                first_child: 0,
                next_sibling: 0,
            })
            .collect();
        let mut last_child = vec![0usize; parents.len() + 1];
        for (node, &parent) in (1..).zip(parents).skip(1) {
            match last_child[parent] {
                0 => records[parent - 1].first_child = node as u16,
                before => records[before - 1].next_sibling = node as u16,
            }
            last_child[parent] = node;
        }
        Table {
            count: records.len() as u16,
            limit,
            records,
        }
    }

    pub fn bytes(&self) -> Vec<u8> {
        let mut words = vec![self.count, self.limit];
        for record in &self.records {
            words.extend([
                record.weight,
                record.label,
                record.first_child,
                record.next_sibling,
            ]);
        }
        words.iter().flat_map(|word| word.to_be_bytes()).collect()
    }

    /// Labels from 1 up, as accepted trees have them.
    pub fn with_random_labels(mut self, random: &mut Random) -> Table {
        for record in &mut self.records {
            record.label = random.between(1, 65535) as u16;
        }
        self
    }

    /// Label 0 at one node or several.
    pub fn unfiled(mut self, random: &mut Random) -> Table {
        let count = self.records.len();
        let (first, step) = (random.between(0, count - 1), random.between(1, count));
        for record in self.records[first..].iter_mut().step_by(step) {
            record.label = 0;
        }
        self
    }
}

/// Calls `visit` with every table of so many nodes whose weights and limit are among these. A
/// weight may be over the limit.
pub fn for_each_table(
    counts: std::ops::RangeInclusive<usize>,
    weights: &[u16],
    limits: &[u16],
    mut visit: impl FnMut(&[u8]),
) {
    for count in counts {
        for parents in all_parents(count) {
            for weights in all_weights(count, weights) {
                for &limit in limits {
                    visit(&Table::new(limit, &parents, &weights).bytes());
                }
            }
        }
    }
}

/// Calls `visit` with every list of so many bytes from 0 to `most`.
fn for_each_list(count: usize, most: u8, mut visit: impl FnMut(&[u8])) {
    let mut list = vec![0; count];
    loop {
        visit(&list);
        let Some(place) = list.iter().position(|&byte| byte < most) else {
            return;
        };
        list[..place].fill(0);
        list[place] += 1;
    }
}

/// Calls `visit` with the table under every list of labels 0 and 1.
pub fn for_each_labelling(table: &[u8], mut visit: impl FnMut(&[u8])) {
    let mut table = table.to_vec();
    for_each_list(table.len() / 8, 1, |labels| {
        for (record, &label) in table[4..].chunks_mut(8).zip(labels) {
            record[2..4].copy_from_slice(&[0, label]);
        }
        visit(&table);
    });
}

/// Calls `visit` with every list of so many marks from 0 to 3.
pub fn for_each_marks(count: usize, visit: impl FnMut(&[u8])) {
    for_each_list(count, 3, visit);
}

/// Calls `visit` with every table of so many nodes whose links are 0 to one above the count.
pub fn for_each_linking(count: usize, mut visit: impl FnMut(&Table)) {
    let mut table = Table::new(9, &all_parents(count)[0], &vec![1; count]);
    for_each_list(2 * count, count as u8 + 1, |links| {
        for (record, links) in table.records.iter_mut().zip(links.chunks(2)) {
            record.first_child = links[0].into();
            record.next_sibling = links[1].into();
        }
        visit(&table);
    });
}

/// Calls `visit` with every archive of one page and so many nodes whose parents are 0 to one above
/// the count. All its other words are as they should be.
pub fn for_each_parenting(edition: Edition, count: usize, mut visit: impl FnMut(&[u8])) {
    let table = Table::new(9, &all_parents(count)[0], &vec![1; count]).bytes();
    let tree = read(&table).expect("an accepted table");
    let mut marks = vec![0; count];
    marks[0] = 1;
    let mut archive = edition.bytes(&tree, &marks);
    for_each_list(count, count as u8 + 1, |parents| {
        for (node, &parent) in (1..).zip(parents) {
            archive[2 * (edition.node_at(1, node) + 2) + 1] = parent;
        }
        visit(&archive);
    });
}

/// A table of an accepted tree with so many nodes and that limit.
pub fn random_table(random: &mut Random, form: Form, count: usize, limit: usize) -> Table {
    let parents = random_parents(random, form, count);
    let weights = match form {
        Form::Comb => comb_weights(random, &parents, limit),
        _ => any_weights(random, count, limit),
    };
    Table::new(limit as u16, &parents, &weights).with_random_labels(random)
}

/// How many of ten nodes of a table are notes of weight 0, in the one table or the other.
const NOTES: [usize; 5] = [0, 0, 2, 5, 9];

fn any_weights(random: &mut Random, count: usize, limit: usize) -> Vec<u16> {
    // The most that a weight usually is, and how often one up to the limit comes in between.
    let (usual, rare) = random.pick(&[(1, 9), (3, 9), (3, 1000), (limit / 4 + 1, 9), (limit, 9)]);
    let notes = random.pick(&NOTES);
    let mut weight = || {
        let most = if random.once_in(rare) {
            limit
        } else {
            usual.min(limit)
        };
        note_or(random, notes, most)
    };
    (0..count).map(|_| weight()).collect()
}

/// A node with three children or more is nearly as heavy as the limit.
fn comb_weights(random: &mut Random, parents: &[usize], limit: usize) -> Vec<u16> {
    let mut children = vec![0; parents.len() + 1];
    parents.iter().for_each(|&parent| children[parent] += 1);
    let notes = random.pick(&NOTES);
    let weight = |node: usize| match children[node] >= 3 {
        true => random.between((limit - 1).max(1), limit) as u16,
        false => note_or(random, notes, (limit / 2).max(1)),
    };
    (1..=parents.len()).map(weight).collect()
}

/// A weight of 0, so many times of ten, or one from 1 to `most`.
fn note_or(random: &mut Random, notes: usize, most: usize) -> u16 {
    match random.between(1, 10) <= notes {
        true => 0,
        false => random.between(1, most) as u16,
    }
}

/// A table of an accepted tree of any form, with up to so many nodes and up to that limit.
pub fn any_table(random: &mut Random, max_nodes: usize, max_limit: usize) -> Table {
    assert!(max_nodes <= MAX_NODES && max_limit <= MAX_LIMIT);
    let form = random.pick(&FORMS);
    let (count, limit) = (random.between(1, max_nodes), random.between(1, max_limit));
    random_table(random, form, count, limit)
}

/// The tree with notes of weight 0 as further children, in front of, between and behind those of
/// any nodes. A run takes in those between its nodes, and all others can stay: neither page count
/// nor root weight of the best plan is another for them.
pub fn noted(random: &mut Random, tree: &Tree) -> Table {
    noted_by(tree, &mut || random.pick(&[0, 0, 1, 4]))
}

/// The same with so many nodes in all.
pub fn noted_up_to(random: &mut Random, tree: &Tree, count: usize) -> Table {
    // In front of each node but node 1, and behind the last child of each.
    let mut gaps = vec![0; 2 * tree.node_count() - 1];
    for _ in tree.node_count()..count {
        let gap = random.between(0, gaps.len() - 1);
        gaps[gap] += 1;
    }
    noted_by(tree, &mut || gaps.pop().expect("a gap"))
}

/// With as many notes at each place as the call gives.
fn noted_by(tree: &Tree, notes: &mut dyn FnMut() -> usize) -> Table {
    let mut nodes = vec![];
    copy_noted(tree, 1, 0, notes, &mut nodes);
    let (parents, weights): (Parents, Vec<u16>) = nodes.into_iter().unzip();
    Table::new(tree.limit as u16, &parents, &weights)
}

/// Adds a branch below a parent: the parent and the weight of each of its nodes.
fn copy_noted(
    tree: &Tree,
    node: usize,
    parent: usize,
    notes: &mut dyn FnMut() -> usize,
    nodes: &mut Vec<(usize, u16)>,
) {
    nodes.push((parent, tree.weights[node] as u16));
    let note = (nodes.len(), 0);
    for &child in &tree.children[node] {
        nodes.extend(vec![note; notes()]);
        copy_noted(tree, child, note.0, notes, nodes);
    }
    nodes.extend(vec![note; notes()]);
}

/// Puts one random fault, or what may be one, into a table and encodes it.
pub fn damaged(random: &mut Random, table: &Table) -> Vec<u8> {
    let mut table = table.clone();
    let count = table.records.len();
    let place = random.between(0, count - 1);
    let link = random.between(0, count + 2) as u16;
    match random.between(1, 11) {
        1 => {
            let (less, more) = (table.count - 1, table.count + 1);
            table.count = random.pick(&[0, less, more, 1024, 1025, 2048, 2049, 65535]);
        }
        2 => table.limit = random.pick(&[0, 1, table.limit - 1, 1024, 1025, 65535]),
        3 => table.records[place].weight = 0,
        4 => table.records[place].weight = random.pick(&[table.limit + 1, 1025, 65535]),
        5 => table.records[place].first_child = link,
        6 => table.records[place].next_sibling = link,
        7 => table.records[0].next_sibling = link,
        8 => table = table.unfiled(random),
        9 => return truncated(random, table.bytes()),
        10 => return extended(random, table.bytes()),
        _ => return flipped(random, table.bytes()),
    }
    table.bytes()
}

fn truncated(random: &mut Random, mut bytes: Vec<u8>) -> Vec<u8> {
    let length = random.between(0, bytes.len() - 1);
    bytes.truncate(length);
    bytes
}

fn extended(random: &mut Random, mut bytes: Vec<u8>) -> Vec<u8> {
    let more = random.between(1, 9);
    bytes.extend(random.bytes(more));
    bytes
}

/// Flips one bit.
pub fn flipped(random: &mut Random, mut bytes: Vec<u8>) -> Vec<u8> {
    let place = random.between(0, bytes.len() - 1);
    bytes[place] ^= 1 << random.between(0, 7);
    bytes
}

/// Marks that are all allowed, with about as many runs as the tree has nodes over `rare`.
pub fn random_plan(random: &mut Random, tree: &Tree, rare: usize) -> Vec<u8> {
    plan_that_begins(random, tree, |random, _| random.once_in(rare))
}

/// Marks that are all allowed, with exactly so many runs. Any node can begin one.
pub fn plan_of_pages(random: &mut Random, tree: &Tree, pages: usize) -> Vec<u8> {
    assert!((1..=tree.node_count()).contains(&pages));
    let mut more = pages - 1;
    plan_that_begins(random, tree, |random, node| {
        let begins = random.between(node, tree.node_count()) < node + more;
        more -= usize::from(begins);
        begins
    })
}

/// Marks that are all allowed, with a run begun where the test says so.
fn plan_that_begins(
    random: &mut Random,
    tree: &Tree,
    mut begins: impl FnMut(&mut Random, usize) -> bool,
) -> Vec<u8> {
    let mut marks: Vec<u8> = vec![1];
    for node in tree.nodes().skip(1) {
        let follows_run = tree.before[node].is_some_and(|sibling| marks[sibling - 1] != 0);
        let mark = if begins(random, node) {
            1
        } else if follows_run && random.once_in(2) {
            2
        } else {
            0
        };
        marks.push(mark);
    }
    marks
}

/// A feasible plan or, once in four, any allowed marks.
pub fn any_plan(random: &mut Random, tree: &Tree) -> Vec<u8> {
    match random.once_in(4) {
        true => random_plan(random, tree, 3),
        false => feasible_plan(random, tree),
    }
}

/// A feasible plan: random marks, with cuts added until no page is over the limit.
pub fn feasible_plan(random: &mut Random, tree: &Tree) -> Vec<u8> {
    let rare = random.pick(&[1, 2, 5, 50]);
    let mut marks = random_plan(random, tree, rare);
    loop {
        let mut heavy = pages(tree, &marks);
        heavy.retain(|page| page.weight > tree.limit);
        if heavy.is_empty() {
            return marks;
        }
        for page in heavy {
            marks[page.nodes[random.between(1, page.nodes.len() - 1)] - 1] = 1;
        }
    }
}
