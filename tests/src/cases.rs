//! Cases A to G of document 01, its examples of refusals, and what document 02 adds: one for refusal
//! 14, the plans of request Two, those of trees with weights of 0, trees that are too long for the
//! archive's first edition, archives of edition 2, and prices.

use crate::gen::Table;
use crate::model::{
    plan_best, plan_depth_first, plan_level, plan_pair, plan_rightmost, plan_single, word, Answer,
    Edition, Planner, Price, Saving,
};
use balduqen::doors;

#[derive(Clone, Copy, Debug, PartialEq, Eq)]
pub enum Kind {
    Best,
    Level,
    Single,
    Pair,
    Rightmost,
    DepthFirst,
}

pub const KINDS: [Kind; 6] = [
    Kind::Best,
    Kind::Level,
    Kind::Single,
    Kind::Pair,
    Kind::Rightmost,
    Kind::DepthFirst,
];

/// The two planners of request Two.
pub const QUICK: [Kind; 2] = [Kind::Rightmost, Kind::DepthFirst];

impl Kind {
    pub fn model(self) -> Planner {
        match self {
            Kind::Best => plan_best,
            Kind::Level => plan_level,
            Kind::Single => plan_single,
            Kind::Pair => plan_pair,
            Kind::Rightmost => plan_rightmost,
            Kind::DepthFirst => plan_depth_first,
        }
    }

    pub fn library(self) -> Planner {
        match self {
            Kind::Best => doors::plan_best,
            Kind::Level => doors::plan_level,
            Kind::Single => doors::plan_single,
            Kind::Pair => doors::plan_pair,
            Kind::Rightmost => doors::plan_rightmost,
            Kind::DepthFirst => doors::plan_depth_first,
        }
    }
}

/// What a planner makes of a tree: marks, page count, root weight.
pub struct Made {
    pub name: &'static str,
    pub table: Table,
    pub kind: Kind,
    pub marks: Vec<u8>,
    pub pages: usize,
    pub root: u32,
}

pub fn case_a() -> Table {
    Table::new(1, &[0], &[1])
}

pub fn case_b() -> Table {
    Table::new(3, &[0], &[4])
}

pub fn case_c() -> Table {
    Table::new(5, &[0, 1, 1, 1], &[2, 1, 1, 1])
}

pub fn case_d() -> Table {
    Table {
        limit: 4,
        ..case_c()
    }
}

pub fn case_e() -> Table {
    Table::new(5, &[0, 1, 1, 3, 3, 1], &[5, 2, 1, 2, 2, 1])
}

pub fn case_f() -> Table {
    Table::new(4, &[0, 1, 1], &[1, 3, 3])
}

pub fn case_g() -> Table {
    Table::new(5, &[0, 1, 2, 1, 1], &[1, 2, 3, 2, 2])
}

/// Root 2 and children 1 0 1 under limit 2: the note between them is in the run, which has more
/// nodes than the limit.
pub fn note_between() -> Table {
    Table::new(2, &[0, 1, 1, 1], &[2, 1, 0, 1])
}

/// The same with four notes.
pub fn notes_between() -> Table {
    Table::new(2, &[0, 1, 1, 1, 1, 1, 1], &[2, 1, 0, 0, 0, 0, 1])
}

/// Case E with two notes on either side of the middle child, and one between that child's children.
pub fn case_e_with_notes() -> Table {
    let parents = [0, 1, 1, 1, 1, 5, 5, 5, 1, 1, 1];
    Table::new(5, &parents, &[5, 2, 0, 0, 1, 2, 0, 2, 0, 0, 1])
}

/// The shape of case E under limit 2, with a note in the middle: only by its second plan, which
/// cuts both its children off, do the three children of the root come to 2.
pub fn small_e_with_note() -> Table {
    Table::new(2, &[0, 1, 1, 3, 3, 1], &[2, 1, 0, 1, 1, 1])
}

/// Nodes of weight 0 at both ends of a run and in it; those at the ends have a child of weight 1.
pub fn notes_at_the_ends() -> Table {
    Table::new(3, &[0, 1, 2, 1, 1, 1, 6], &[3, 0, 1, 0, 1, 0, 1])
}

/// Case E with so many nodes in all: notes are further children of node 1, behind the others. They
/// change no page, so that the plans are those of case E with marks of 0.
pub fn long_case_e(count: usize) -> Table {
    let (mut parents, mut weights) = (vec![0, 1, 1, 3, 3, 1], vec![5, 2, 1, 2, 2, 1]);
    parents.resize(count, 1);
    weights.resize(count, 0);
    Table::new(5, &parents, &weights)
}

/// The plans that document 01 gives, and those that follow by hand from its planner steps, from
/// those of request Two and from the stop of request Three.
pub fn made() -> Vec<Made> {
    let mut list = vec![];
    let mut add = |name, table: Table, kinds: &[Kind], marks: &[u8], pages, root| {
        for &kind in kinds {
            list.push(Made {
                name,
                table: table.clone(),
                kind,
                marks: marks.to_vec(),
                pages,
                root,
            });
        }
    };
    use Kind::*;
    add("A", case_a(), &KINDS, &[1], 1, 1);
    add("C", case_c(), &KINDS, &[1, 0, 0, 0], 1, 5);
    // Rightmost's run goes on to the first child, although cutting the last one is enough.
    let of_run = [Best, Level, Pair, Rightmost];
    add("D", case_d(), &of_run, &[1, 1, 2, 2], 2, 2);
    // The first child is the earliest of equals, and cutting it is enough.
    add("D", case_d(), &[Single], &[1, 1, 0, 0], 2, 4);
    add("D", case_d(), &[DepthFirst], &[1, 0, 0, 1], 2, 4);
    add("E", case_e(), &[Best, Pair], &[1, 1, 2, 1, 2, 2], 3, 5);
    let of_branches = [Level, Single, Rightmost];
    add("E", case_e(), &of_branches, &[1, 1, 1, 0, 0, 1], 4, 5);
    // Nodes 2, 3 and 4 fill a page, and node 6 has neither parent nor sibling on the page of 5.
    add("E", case_e(), &[DepthFirst], &[1, 1, 2, 0, 1, 1], 4, 5);
    add("F", case_f(), &[Best, Level, Single], &[1, 1, 0], 2, 4);
    // Node 2 and its sibling weigh 6, so the sibling is cut, and the rest fits node 1's page.
    let of_last = [Pair, Rightmost, DepthFirst];
    add("F", case_f(), &of_last, &[1, 0, 1], 2, 4);
    add(
        "G",
        case_g(),
        &[Best, Level, Single],
        &[1, 1, 0, 0, 0],
        2,
        5,
    );
    add("G", case_g(), &[Pair, Rightmost], &[1, 1, 0, 1, 2], 3, 1);
    add("G", case_g(), &[DepthFirst], &[1, 0, 1, 1, 2], 3, 3);

    // Two runs either way, so the shorter last run stays.
    let equal = Table::new(5, &[0, 1, 1, 1], &[5, 2, 2, 2]);
    add(
        "equal runs",
        equal.clone(),
        &[Best, Level, DepthFirst],
        &[1, 1, 2, 1],
        3,
        5,
    );
    add("equal runs", equal.clone(), &[Single], &[1, 1, 1, 1], 4, 5);
    add("equal runs", equal, &[Pair, Rightmost], &[1, 1, 1, 2], 3, 5);
    // Two pages in any case, and the last candidate has the lightest root page.
    let lighter = Table::new(3, &[0, 1, 1], &[1, 2, 1]);
    add("lighter rest", lighter.clone(), &of_run, &[1, 1, 2], 2, 1);
    add("lighter rest", lighter.clone(), &[Single], &[1, 1, 0], 2, 2);
    add("lighter rest", lighter, &[DepthFirst], &[1, 0, 1], 2, 3);
    // Node 2's child and its sibling both weigh 2, and pair cuts the child.
    let sides = Table::new(5, &[0, 1, 2, 1], &[1, 2, 2, 2]);
    add(
        "equal sides",
        sides.clone(),
        &[Best, Level, Single],
        &[1, 1, 0, 0],
        2,
        3,
    );
    add("equal sides", sides.clone(), &[Pair], &[1, 0, 1, 0], 2, 5);
    add("equal sides", sides, &QUICK, &[1, 0, 0, 1], 2, 5);
    // The children weigh 2, 9 and 2. Node 4's second plan, with the larger gain, brings them all
    // into one run; node 2's comes earlier and would not be enough.
    let gains = Table::new(10, &[0, 1, 2, 1, 4, 1], &[10, 1, 1, 1, 8, 2]);
    add(
        "larger gain",
        gains.clone(),
        &[Best, Pair],
        &[1, 1, 0, 2, 1, 2],
        3,
        10,
    );
    add(
        "larger gain",
        gains.clone(),
        &of_branches,
        &[1, 1, 0, 1, 0, 1],
        4,
        10,
    );
    add(
        "larger gain",
        gains,
        &[DepthFirst],
        &[1, 1, 0, 2, 1, 1],
        4,
        10,
    );

    // The last two children are enough for the node, and the third still fits the run.
    let stretched = Table::new(4, &[0, 1, 1, 1, 1], &[1, 2, 1, 1, 1]);
    add(
        "stretched",
        stretched.clone(),
        &[Rightmost],
        &[1, 0, 1, 2, 2],
        2,
        3,
    );
    add(
        "stretched",
        stretched,
        &[DepthFirst],
        &[1, 0, 0, 1, 2],
        2,
        4,
    );
    // A run of exactly the limit. A run that ends below it leaves three pages, and one that takes
    // the first child too is over it.
    let full = Table::new(4, &[0, 1, 1, 1], &[1, 3, 2, 2]);
    add("full run", full, &QUICK, &[1, 0, 1, 2], 2, 4);
    // The middle child ends both runs beside it: a run passes over no child, although 1 and 1 fit.
    let between = Table::new(4, &[0, 1, 1, 1], &[4, 1, 4, 1]);
    add("between", between, &QUICK, &[1, 1, 1, 1], 4, 4);
    // A second run begins where the first ended, and takes what fits by itself.
    let two_runs = Table::new(3, &[0, 1, 1, 1, 1], &[3, 1, 2, 1, 2]);
    add("two runs", two_runs, &QUICK, &[1, 1, 2, 1, 2], 3, 3);
    // Node 2 has cut both its children, so that it counts 2 for node 1 and stays. With one child
    // cut, which is enough for node 2, or by the weight of all below it, it would have to go.
    let cut_below = Table::new(4, &[0, 1, 2, 2], &[2, 2, 2, 2]);
    add("cut below", cut_below, &QUICK, &[1, 0, 1, 2], 2, 4);
    // A run of branches: each counts what it has left, and those below it keep their marks.
    let branches = Table::new(5, &[0, 1, 2, 2, 1, 5], &[4, 1, 2, 4, 1, 1]);
    add(
        "branches",
        branches.clone(),
        &[Rightmost],
        &[1, 1, 0, 1, 2, 0],
        3,
        4,
    );
    // Node 5 would fit the page of node 4, which has neither its parent nor its sibling.
    add(
        "branches",
        branches,
        &[DepthFirst],
        &[1, 0, 1, 1, 1, 0],
        4,
        5,
    );
    // Node 4 would fit the page of its parent and its sibling, but node 3 has begun another.
    let not_current = Table::new(4, &[0, 1, 2, 1], &[1, 2, 3, 1]);
    add(
        "not current",
        not_current.clone(),
        &[DepthFirst],
        &[1, 0, 1, 1],
        3,
        3,
    );
    add(
        "not current",
        not_current,
        &[Rightmost],
        &[1, 0, 1, 0],
        2,
        4,
    );
    // The same of siblings: the last one would fit the page of its parent. Nor does rightmost cut a
    // child and leave one to its right.
    let left_behind = Table::new(4, &[0, 1, 1, 1], &[2, 1, 4, 1]);
    add("left behind", left_behind, &QUICK, &[1, 0, 1, 1], 3, 3);
    // Node 4 goes on with the run of node 3, although it would fit its parent's page, too.
    let goes_on = Table::new(3, &[0, 1, 1, 1], &[1, 3, 1, 1]);
    add("goes on", goes_on, &QUICK, &[1, 1, 1, 2], 3, 1);
    // Nodes 4 and 5 stay with their parent, node 6 continues that parent's run, and node 7 stays.
    let both = Table::new(5, &[0, 1, 1, 3, 3, 1, 6], &[2, 3, 1, 1, 1, 1, 1]);
    add("both", both, &QUICK, &[1, 0, 1, 0, 0, 2, 0], 2, 5);

    // Nothing is cut where nothing weighs anything, under any limit.
    for limit in [1, 500] {
        let note = Table::new(limit, &[0], &[0]);
        add("a note alone", note, &KINDS, &[1], 1, 0);
        let notes = Table::new(limit, &[0, 1, 2, 2, 1], &[0; 5]);
        add("notes alone", notes, &KINDS, &[1, 0, 0, 0, 0], 1, 0);
    }
    // A run of three nodes and one of six, under limit 2. Single leaves what weighs nothing.
    let all_but_single = [Best, Level, Pair, Rightmost, DepthFirst];
    let between = note_between();
    add(
        "note between",
        between.clone(),
        &all_but_single,
        &[1, 1, 2, 2],
        2,
        2,
    );
    add("note between", between, &[Single], &[1, 1, 0, 1], 3, 2);
    let between = notes_between();
    add(
        "notes between",
        between.clone(),
        &all_but_single,
        &[1, 1, 2, 2, 2, 2, 2],
        2,
        2,
    );
    add(
        "notes between",
        between,
        &[Single],
        &[1, 1, 0, 0, 0, 0, 1],
        3,
        2,
    );
    // Node 5 follows its second plan, with its own note in a run, and so all seven children are one
    // run. By the sum of rests it would end before node 5.
    let noted = case_e_with_notes();
    add(
        "E with notes",
        noted.clone(),
        &[Best, Pair],
        &[1, 1, 2, 2, 2, 1, 2, 2, 2, 2, 2],
        3,
        5,
    );
    add(
        "E with notes",
        noted.clone(),
        &[Level, Single],
        &[1, 1, 0, 0, 1, 0, 0, 0, 0, 0, 1],
        4,
        5,
    );
    add(
        "E with notes",
        noted.clone(),
        &[Rightmost],
        &[1, 1, 1, 2, 2, 0, 0, 0, 1, 2, 2],
        4,
        5,
    );
    // Node 9 fits the page of node 8, which has neither its parent nor its sibling.
    add(
        "E with notes",
        noted,
        &[DepthFirst],
        &[1, 1, 2, 2, 2, 0, 0, 1, 1, 2, 2],
        4,
        5,
    );
    let small = small_e_with_note();
    add(
        "small E with a note",
        small.clone(),
        &[Best, Pair],
        &[1, 1, 2, 1, 2, 2],
        3,
        2,
    );
    add(
        "small E with a note",
        small.clone(),
        &of_branches,
        &[1, 1, 1, 0, 0, 1],
        4,
        2,
    );
    add(
        "small E with a note",
        small,
        &[DepthFirst],
        &[1, 1, 2, 0, 1, 1],
        4,
        2,
    );
    // A run that begins and ends with a node of weight 0, and has one in it.
    let ends = notes_at_the_ends();
    add(
        "notes at the ends",
        ends.clone(),
        &of_run,
        &[1, 1, 0, 2, 2, 2, 0],
        2,
        3,
    );
    add(
        "notes at the ends",
        ends.clone(),
        &[Single],
        &[1, 1, 0, 0, 1, 1, 0],
        4,
        3,
    );
    // Node 2 adds nothing to the page of node 1, which is full.
    add(
        "notes at the ends",
        ends,
        &[DepthFirst],
        &[1, 0, 1, 1, 2, 2, 0],
        3,
        3,
    );
    // A note first in a run, and last in one, under limit 1. Where it can stay, best lets it.
    let first = Table::new(1, &[0, 1, 1], &[1, 0, 1]);
    let kinds = [Best, Level, Single, DepthFirst];
    add("note first", first.clone(), &kinds, &[1, 0, 1], 2, 1);
    add("note first", first, &[Pair, Rightmost], &[1, 1, 2], 2, 1);
    let last = Table::new(1, &[0, 1, 1], &[1, 1, 0]);
    let of_rest = [Best, Level, Single];
    add("note last", last.clone(), &of_rest, &[1, 1, 0], 2, 1);
    let others = [Pair, Rightmost, DepthFirst];
    add("note last", last, &others, &[1, 1, 2], 2, 1);
    // The page is full with node 2, and the notes still go on it.
    let full = Table::new(3, &[0, 1, 1, 1, 1], &[3, 3, 0, 0, 0]);
    add(
        "full and notes",
        full.clone(),
        &of_rest,
        &[1, 1, 0, 0, 0],
        2,
        3,
    );
    add("full and notes", full, &others, &[1, 1, 2, 2, 2], 2, 3);
    // The root is a note.
    let root = Table::new(2, &[0, 1, 1, 1], &[0, 2, 0, 2]);
    add("root note", root.clone(), &of_rest, &[1, 1, 0, 0], 2, 2);
    let of_last = [Pair, Rightmost];
    add("root note", root.clone(), &of_last, &[1, 0, 1, 2], 2, 2);
    add("root note", root, &[DepthFirst], &[1, 0, 0, 1], 2, 2);
    // Node 4 finds neither parent nor sibling on the page of node 3: a page of weight 0.
    let alone = Table::new(1, &[0, 1, 2, 1], &[1, 1, 1, 0]);
    add(
        "page of a note",
        alone.clone(),
        &of_rest,
        &[1, 1, 1, 0],
        3,
        1,
    );
    add(
        "page of a note",
        alone.clone(),
        &of_last,
        &[1, 1, 1, 2],
        3,
        1,
    );
    add("page of a note", alone, &[DepthFirst], &[1, 1, 1, 1], 4, 1);
    list
}

/// The marks of a plan, the weight of its root page, and what each of its pages costs in cents, in
/// the order of their numbers.
pub type PricedPlan = (&'static [u8], u32, &'static [u32]);

/// The best plan of a tree and the single-cut plan, and the saving of the one against the other.
pub struct Priced {
    pub name: &'static str,
    pub table: Table,
    pub best: PricedPlan,
    pub single: PricedPlan,
    pub saving: i32,
}

impl Priced {
    /// The answer of the saving, with the verdict on the best plan.
    pub fn saved(&self) -> Saving {
        let (_, root, cents) = self.best;
        Saving::accepted(cents.len(), root, self.saving)
    }
}

/// The answer of the price, with the verdict on this plan.
pub fn price_of((_, root, cents): PricedPlan) -> Price {
    Price::accepted(cents.len(), root, cents.iter().sum())
}

/// Root 2, children 1 1, K 3: best leaves both pages two thirds full, and single fills one of them.
pub fn dear_best() -> Table {
    Table::new(3, &[0, 1, 1], &[2, 1, 1])
}

/// A chain of eight nodes under limit 37. Four pages are the fewest, in one way only: they weigh
/// 27, 27, 27 and 32. Of five pages three can be full, and they cost less.
pub fn even_chain() -> Table {
    let parents = [0, 1, 2, 3, 4, 5, 6, 7];
    Table::new(37, &parents, &[1, 26, 11, 16, 21, 6, 31, 1])
}

/// A full root under limit 7 and its children, as in case E: four of the six have a child. Best
/// lays the six in a run and cuts their children off, so that five pages weigh 6 each. Single has a
/// page more, and four more that are full.
pub fn even_run() -> Table {
    let parents = [0, 1, 1, 3, 1, 5, 1, 7, 1, 9, 1];
    Table::new(7, &parents, &[7, 1, 1, 6, 1, 6, 1, 6, 1, 6, 1])
}

/// What request Seven tells of case E, and prices that follow by hand from its list: savings below,
/// at and above zero.
pub fn priced() -> Vec<Priced> {
    let mut list = vec![];
    let mut add = |name, table, best: PricedPlan, single: PricedPlan, saving| {
        list.push(Priced {
            name,
            table,
            best,
            single,
            saving,
        });
    };
    // 578 and 925.
    add(
        "E",
        case_e(),
        (&MARKS_OF_E, 5, &[90, 244, 244]),
        (&[1, 1, 1, 0, 0, 1], 5, &[90, 355, 90, 390]),
        347,
    );
    // One page.
    let mut add_same = |name, table, plan: PricedPlan| add(name, table, plan, plan, 0);
    add_same("A", case_a(), (&[1], 1, &[90]));
    add_same("a note alone", Table::new(1, &[0], &[0]), (&[1], 0, &[410]));
    add_same("C", case_c(), (&[1, 0, 0, 0], 5, &[90]));
    // Two pages, the same by both planners.
    add_same("F", case_f(), (&[1, 1, 0], 4, &[90, 266]));
    add_same("G", case_g(), (&[1, 1, 0, 0, 0], 5, &[90, 90]));
    // As many pages: best has the lighter root page, and single has a full one.
    add(
        "dear best",
        dear_best(),
        (&[1, 1, 2], 2, &[287, 287]),
        (&[1, 1, 0], 3, &[90, 368]),
        -116,
    );
    add(
        "D",
        case_d(),
        (&[1, 1, 2, 2], 2, &[340, 266]),
        (&[1, 1, 0, 0], 4, &[90, 390]),
        -126,
    );
    // Single has a page more, and costs less all the same.
    add(
        "even run",
        even_run(),
        (
            &[1, 1, 2, 1, 2, 1, 2, 1, 2, 1, 2],
            7,
            &[90, 244, 244, 244, 244, 244],
        ),
        (
            &[1, 1, 1, 0, 1, 0, 1, 0, 1, 0, 1],
            7,
            &[90, 398, 90, 90, 90, 90, 398],
        ),
        -64,
    );
    // Two plans at one price.
    add(
        "equal prices",
        Table::new(2, &[0, 1, 1], &[1, 1, 1]),
        (&[1, 1, 2], 1, &[340, 90]),
        (&[1, 1, 0], 2, &[90, 340]),
        0,
    );
    // As many pages, and here best has the full one.
    add(
        "lighter rest",
        Table::new(3, &[0, 1, 1], &[1, 2, 1]),
        (&[1, 1, 2], 1, &[368, 90]),
        (&[1, 1, 0], 2, &[287, 287]),
        116,
    );
    // Single has a page more.
    add(
        "equal runs",
        Table::new(5, &[0, 1, 1, 1], &[5, 2, 2, 2]),
        (&[1, 1, 2, 1], 5, &[90, 244, 355]),
        (&[1, 1, 1, 1], 5, &[90, 355, 355, 355]),
        466,
    );
    add(
        "larger gain",
        Table::new(10, &[0, 1, 2, 1, 4, 1], &[10, 1, 1, 1, 8, 2]),
        (&[1, 1, 0, 2, 1, 2], 10, &[90, 340, 244]),
        (&[1, 1, 0, 1, 0, 1], 10, &[90, 390, 221, 390]),
        417,
    );
    add(
        "note between",
        note_between(),
        (&[1, 1, 2, 2], 2, &[90, 90]),
        (&[1, 1, 0, 1], 2, &[90, 340, 340]),
        590,
    );
    // Two more.
    add(
        "notes at the ends",
        notes_at_the_ends(),
        (&[1, 1, 0, 2, 2, 2, 0], 3, &[90, 90]),
        (&[1, 1, 0, 0, 1, 1, 0], 3, &[90, 368, 368, 368]),
        1014,
    );
    list
}

/// Tables that the tree reader refuses in document 01's examples, with number and place, and case E
/// with a lot that nobody has filed.
pub fn refused_tables() -> Vec<(Vec<u8>, u32, usize)> {
    let mut unfiled = case_e();
    unfiled.records[2].label = 0;
    let bad_link = vec![0, 1, 0, 5, 0, 1, 0, 1, 0, 5, 0, 0];
    vec![
        (vec![0, 1], 1, 0),
        (vec![0, 0, 0, 5], 2, 0),
        (vec![0, 1, 0, 0], 3, 0),
        (vec![0, 1, 0, 5, 0], 4, 12),
        (unfiled.bytes(), 14, 3),
        (bad_link, 6, 1),
        (
            Table {
                limit: 4,
                ..case_e()
            }
            .bytes(),
            7,
            1,
        ),
        (case_b().bytes(), 7, 1),
    ]
}

/// Tables that were refused with 5 while a weight of 0 was, with number and place since request
/// Three: both 0 where the tree is accepted, or those of the next fault.
pub fn once_refused_tables() -> Vec<(Vec<u8>, u32, usize)> {
    let changed = |change: fn(&mut Table)| {
        let mut table = case_e();
        table.records[2].weight = 0;
        change(&mut table);
        table.bytes()
    };
    vec![
        (changed(|_| {}), 0, 0),
        (changed(|table| table.records[0].weight = 0), 0, 0),
        (changed(|table| table.records[5].weight = 0), 0, 0),
        (Table::new(5, &[0], &[0]).bytes(), 0, 0),
        (Table::new(1, &[0, 1, 1, 3, 3, 1], &[0; 6]).bytes(), 0, 0),
        (changed(|table| table.records[2].label = 0), 14, 3),
        (changed(|table| table.records[4].label = 0), 14, 5),
        (changed(|table| table.records[0].next_sibling = 2), 6, 0),
        (changed(|table| table.records[2].first_child = 0), 6, 3),
        (changed(|table| table.limit = 4), 7, 1),
        (changed(|table| table.records[5].weight = 6), 7, 6),
    ]
}

/// What the tree reader refuses, in the order of its checks.
const FAULTS: [u32; 7] = [1, 2, 3, 4, 14, 6, 7];

/// Case E with every selection of one fault for each of the numbers 1 to 4, 6, 7 and 14, without
/// and with a weight of 0, which is none, and the answer that the order of the checks leaves:
/// number and place, both 0 without a fault.
pub fn faulty_tables() -> Vec<(Vec<u8>, u32, usize)> {
    faulty(&case_e())
}

/// The same of a table that begins as case E does.
fn faulty(good: &Table) -> Vec<(Vec<u8>, u32, usize)> {
    let length = good.bytes().len();
    let mut list = vec![];
    for selection in 0..2 << FAULTS.len() {
        let has = |number: u32| {
            let place = FAULTS.iter().position(|&fault| fault == number);
            selection & 1 << place.expect("a fault of this number") != 0
        };
        let has_note = selection & 1 << FAULTS.len() != 0;
        let mut table = good.clone();
        if has(2) {
            table.count = 2049;
        }
        if has(3) {
            table.limit = 1026;
        }
        if has_note {
            table.records[3].weight = 0;
        }
        if has(14) {
            // At two nodes, of which the first is told.
            table.records[2].label = 0;
            table.records[4].label = 0;
        }
        if has(6) {
            table.records[4].next_sibling = 3;
        }
        if has(7) {
            table.records[1].weight = 65535;
        }
        let mut bytes = table.bytes();
        if has(4) {
            bytes.push(0);
        }
        if has(1) {
            bytes.truncate(3);
        }
        let number = FAULTS.into_iter().find(|&number| has(number)).unwrap_or(0);
        let place = match number {
            2 => 2049,
            3 => 1026,
            4 => length,
            14 => 3,
            6 => 5,
            7 => 2,
            _ => 0,
        };
        list.push((bytes, number, place));
    }
    list
}

/// Marks that the judge refuses for case E, with number and place.
pub fn refused_marks() -> Vec<(Vec<u8>, u32, usize)> {
    vec![
        (vec![1; 5], 8, 6),
        (vec![1, 2, 0, 0, 0, 0], 10, 2),
        (vec![1, 0, 0, 0, 0, 0], 11, 1),
    ]
}

/// Each of `faulty_tables` with marks that have a fault and with E's best plan, which has none, and
/// the judge's answer: E's verdict where nothing is wrong, also where node 4 is a note.
pub fn faulty_plans() -> Vec<(Vec<u8>, Vec<u8>, Answer)> {
    faulty_long_plans(6)
}

/// The same of case E with so many nodes, of which those behind the sixth stay with node 1.
pub fn faulty_long_plans(count: usize) -> Vec<(Vec<u8>, Vec<u8>, Answer)> {
    let all = |marks: [u8; 6]| [&marks[..], &vec![0; count - 6]].concat();
    let one_page = all([1, 0, 0, 0, 0, 0]);
    let plans = [
        (vec![9; count - 1], Answer::refused(8, count)),
        ([&one_page[..], &[0]].concat(), Answer::refused(8, count)),
        (all([1, 0, 0, 0, 0, 3]), Answer::refused(10, 6)),
        (one_page, Answer::refused(11, 1)),
        (all(MARKS_OF_E), Answer::accepted(3, 5)),
    ];
    let of_table = |(table, number, place): (Vec<u8>, u32, usize)| {
        plans.clone().map(|(marks, of_marks)| match number {
            0 => (table.clone(), marks, of_marks),
            _ => (table.clone(), marks, Answer::refused(number, place)),
        })
    };
    let tables = faulty(&long_case_e(count));
    tables.into_iter().flat_map(of_table).collect()
}

/// Each of `once_refused_tables` with a page for each node, and the judge's answer.
pub fn once_refused_plans() -> Vec<(Vec<u8>, Vec<u8>, Answer)> {
    let of_table = |(table, number, place): (Vec<u8>, u32, usize)| {
        let marks = vec![1; word(&table, 0)];
        let answer = match number {
            0 => Answer::accepted(marks.len(), word(&table, 2) as u32),
            _ => Answer::refused(number, place),
        };
        (table, marks, answer)
    };
    once_refused_tables().into_iter().map(of_table).collect()
}

/// The best plan of case E.
pub const MARKS_OF_E: [u8; 6] = [1, 1, 2, 1, 2, 2];

/// The archive of `note_between` and its best plan, word by word.
pub fn archive_of_note_between() -> Vec<u8> {
    bytes(&[
        4, 2, 2, // N, K, P
        1, 1, 2, 2, // page 1
        2, 4, 2, 0, // page 2
        2, 1, 0, 0, // node 1
        1, 2, 1, 3, // node 2
        0, 3, 1, 4, // node 3
        1, 4, 1, 0, // node 4
    ])
}

fn bytes(words: &[u16]) -> Vec<u8> {
    words.iter().flat_map(|word| word.to_be_bytes()).collect()
}

/// The leader sheet of case E and its best plan, as a file that neither model nor library made.
pub const SHEET_OF_E: &[u8] = include_bytes!("../../examples/case_e.sheet");

/// The archive of case E and its best plan, word by word.
pub fn archive_of_e() -> Vec<u8> {
    bytes(&[
        6, 5, 3, // N, K, P
        1, 1, 5, 2, // page 1
        2, 6, 4, 3, // page 2
        4, 5, 4, 0, // page 3
        5, 1, 0, 0, // node 1
        2, 2, 1, 3, // node 2
        1, 3, 1, 6, // node 3
        2, 4, 3, 5, // node 4
        2, 5, 3, 0, // node 5
        1, 6, 1, 0, // node 6
    ])
}

/// The same in edition 2: pages of one node, of three and of two.
pub fn archive2_of_e() -> Vec<u8> {
    bytes(&[
        8194, 6, 5, 3, // the edition, N, K, P
        1, 1, 5, 2, 1, // page 1
        2, 6, 4, 3, 3, // page 2
        4, 5, 4, 0, 2, // page 3
        5, 1, 0, 0, // node 1
        2, 2, 1, 3, // node 2
        1, 3, 1, 6, // node 3
        2, 4, 3, 5, // node 4
        2, 5, 3, 0, // node 5
        1, 6, 1, 0, // node 6
    ])
}

/// One or the other.
pub fn film_of_e(edition: Edition) -> Vec<u8> {
    [archive_of_e(), archive2_of_e()][edition.number - 1].clone()
}
