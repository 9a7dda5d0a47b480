//! Plans made, judged, printed and priced.

use crate::{
    doors, read_tree, scratch_length, sheets_length, word, Refusal, UnknownPlanner, Verdict,
};
use std::fmt;
use std::str::FromStr;

/// The six planners. Each plans every tree that can be planned.
#[derive(Clone, Copy, Debug, PartialEq, Eq)]
pub enum Planner {
    /// The fewest pages of all plans and, with as many, the lightest root page.
    Best,
    /// As best, but each branch keeps its own best plan.
    Level,
    /// Cuts the heaviest child, as a run by itself, until the rest fits.
    Single,
    /// The same on the tree of first children and next siblings, so that runs can be longer.
    Pair,
    /// Cuts runs of last children, each as long as a page holds, until the rest fits. It is quick.
    Rightmost,
    /// Lays each node, in their order, on the page begun last where it can, and else begins one. It
    /// is quick.
    DepthFirst,
}

impl Planner {
    /// All planners, the best one first.
    pub const ALL: [Planner; 6] = [
        Planner::Best,
        Planner::Level,
        Planner::Single,
        Planner::Pair,
        Planner::Rightmost,
        Planner::DepthFirst,
    ];

    /// Its name, by which a planner is also read from text.
    #[must_use]
    pub fn name(self) -> &'static str {
        match self {
            Planner::Best => "best",
            Planner::Level => "level",
            Planner::Single => "single",
            Planner::Pair => "pair",
            Planner::Rightmost => "rightmost",
            Planner::DepthFirst => "depth-first",
        }
    }

    /// Its door, which takes a table and fills marks with the help of scratch.
    #[must_use]
    pub fn door(self) -> fn(&[u8], &mut [u8], &mut [u32]) -> doors::Answer {
        match self {
            Planner::Best => doors::plan_best,
            Planner::Level => doors::plan_level,
            Planner::Single => doors::plan_single,
            Planner::Pair => doors::plan_pair,
            Planner::Rightmost => doors::plan_rightmost,
            Planner::DepthFirst => doors::plan_depth_first,
        }
    }
}

impl fmt::Display for Planner {
    fn fmt(&self, f: &mut fmt::Formatter) -> fmt::Result {
        f.write_str(self.name())
    }
}

impl FromStr for Planner {
    type Err = UnknownPlanner;

    fn from_str(name: &str) -> Result<Planner, UnknownPlanner> {
        let mut all = Planner::ALL.into_iter();
        all.find(|planner| planner.name() == name)
            .ok_or_else(|| UnknownPlanner::new(name))
    }
}

/// A plan of a tree.
#[must_use]
#[derive(Clone, Debug, PartialEq, Eq)]
pub struct Plan {
    /// A mark a node, in their order: 0 stays with its parent, 1 begins a run, 2 continues that of
    /// the sibling just before.
    pub marks: Vec<u8>,
    /// Its page count and root weight.
    pub verdict: Verdict,
}

/// What a plan costs.
#[derive(Clone, Copy, Debug, PartialEq, Eq)]
pub struct Priced {
    /// The plan's page count and root weight.
    pub verdict: Verdict,
    /// The film maker's price for all its pages.
    pub cents: u32,
}

/// What the best plan of a tree saves.
#[derive(Clone, Copy, Debug, PartialEq, Eq)]
pub struct Saved {
    /// The best plan's page count and root weight.
    pub verdict: Verdict,
    /// What the best plan costs less than the single planner's, in cents; below 0 where it costs
    /// more.
    pub saving: i32,
}

/// The planner's plan for the tree. Refuses 1 to 4, 6, 7 and 14: what is no tree, or has no plan.
pub fn plan(planner: Planner, table: &[u8]) -> Result<Plan, Refusal> {
    let (mut marks, mut scratch) = buffers(table)?;
    let answer = planner.door()(table, &mut marks, &mut scratch);
    let verdict = answer.result()?;
    Ok(Plan { marks, verdict })
}

/// What the best plan of the tree saves, with its verdict. Refuses as `plan` does.
pub fn saving(table: &[u8]) -> Result<Saved, Refusal> {
    let (mut marks, mut scratch) = buffers(table)?;
    doors::saving(table, &mut marks, &mut scratch).result()
}

/// A planner's marks and scratch. The tree is read first: a table that is refused could ask for any
/// amount of scratch.
fn buffers(table: &[u8]) -> Result<(Vec<u8>, Vec<u32>), Refusal> {
    read_tree(table)?;
    let [nodes, limit] = [0, 1].map(|index| usize::from(word(table, index)));
    Ok((vec![0; nodes], vec![0; scratch_length(nodes, limit)]))
}

/// Whether the marks are a plan of the tree with no page over the limit. Refuses 1 to 4, 6 to 8,
/// 10, 11 and 14.
pub fn judge(table: &[u8], marks: &[u8]) -> Result<Verdict, Refusal> {
    doors::judge(table, marks).result()
}

/// What the plan costs, with its verdict. Refuses where `judge` does.
pub fn price(table: &[u8], marks: &[u8]) -> Result<Priced, Refusal> {
    doors::price(table, marks).result()
}

/// The leader sheets of the plan: lines of 80 columns, 60 to a sheet. Refuses where `judge` does.
pub fn print_sheets(table: &[u8], marks: &[u8]) -> Result<Vec<u8>, Refusal> {
    let verdict = judge(table, marks)?;
    let mut sheets = vec![0; sheets_length(verdict.pages)];
    doors::print_sheets(table, marks, &mut sheets).result()?;
    Ok(sheets)
}
