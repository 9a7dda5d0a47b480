//! The tree: a box a node in the colour of its page, lines to parents, and bars along runs.

use crate::colour::{dark, light};
use crate::element::{self, path, rect, text, ALARM, FAINT, LABEL, TAG};
use crate::fold::{Kind, Shown};
use crate::layout;
use crate::letters::Letters;
use crate::tree::Tree;

pub const BOX_HEIGHT: i32 = 54;
const LEAST_BOX_WIDTH: i32 = 40;
/// Between the boxes of a level: room for a page's tag and the bar of a run.
const GAP: i32 = 22;
/// Between the boxes of two levels, at the least and at the most.
const LEAST_DROP: i32 = 52;
const MOST_DROP: i32 = 180;
const BAR: i32 = 14;

/// The letters of a node's number, weight and label.
const NUMBER: Letters = Letters::bold(15);
const WEIGHT: Letters = Letters::plain(12);
const LABELS: Letters = Letters::plain(11);

pub const KEPT: &str = "fill=\"none\" stroke-width=\"3.5\"";
pub const CUT: &str = "fill=\"none\" stroke-width=\"1.3\" stroke-dasharray=\"5 4\"";

pub struct Picture<'a> {
    shown: &'a Shown,
    /// The upper left corner.
    corner: (i32, i32),
    across: Vec<i32>,
    /// The upper side of each level, by depth.
    levels: Vec<i32>,
    box_width: i32,
}

impl<'a> Picture<'a> {
    pub fn new(shown: &'a Shown, corner: (i32, i32)) -> Picture<'a> {
        let box_width = box_width(shown);
        let across = layout::across(&shown.tree, box_width + GAP);
        Picture {
            shown,
            corner,
            levels: levels(&shown.tree, &across),
            across,
            box_width,
        }
    }

    pub fn size(&self) -> (i32, i32) {
        let right = self.across.iter().max().unwrap_or(&0);
        let low = self.levels.last().unwrap_or(&0);
        (right + self.box_width, low + BOX_HEIGHT)
    }

    /// Kept edges over cut ones, and boxes over the ends of edges and bars.
    pub fn draw(&self) -> String {
        let (kept, cut): (Vec<usize>, Vec<usize>) =
            (2..=self.shown.tree.count()).partition(|&number| self.shown.plan.mark(number) == 0);
        let bars = cut
            .iter()
            .filter(|&&number| self.shown.plan.mark(number) == 2);
        let edges = cut.iter().chain(&kept).map(|&number| self.edge(number));
        edges
            .chain(bars.map(|&number| self.bar(number)))
            .chain(self.shown.tree.numbers().map(|number| self.node(number)))
            .collect()
    }

    /// The upper left corner of a node's box.
    fn place(&self, number: usize) -> (i32, i32) {
        let (x, y) = self.corner;
        let level = self.levels[self.shown.tree.node(number).depth];
        (x + self.across[number - 1], y + level)
    }

    /// From the parent's box down to the node's.
    fn edge(&self, number: usize) -> String {
        let half = self.box_width / 2;
        let (x1, y1) = self.place(self.shown.tree.node(number).parent);
        let (x1, y1) = (x1 + half, y1 + BOX_HEIGHT);
        let (x2, y2) = self.place(number);
        let x2 = x2 + half;
        let bend = (y1 + y2) / 2;
        let curve = format!("M{x1} {y1}C{x1} {bend} {x2} {bend} {x2} {y2}");
        match self.shown.plan.mark(number) {
            0 => {
                let colour = dark(self.shown.plan.page_of(number));
                path(&curve, &format!("{KEPT} stroke=\"{colour}\""))
            }
            _ => path(&curve, &format!("{CUT} stroke=\"{FAINT}\"")),
        }
    }

    /// From the sibling before to the node, both of one run.
    fn bar(&self, number: usize) -> String {
        let (x, y) = self.place(self.shown.tree.node(number).before);
        let length = self.place(number).0 - x;
        let at = (x + self.box_width / 2, y + (BOX_HEIGHT - BAR) / 2);
        bar(at, (length, BAR), self.shown.plan.page_of(number))
    }

    fn node(&self, number: usize) -> String {
        let page = self.shown.plan.page_of(number);
        let (x, y) = self.place(number);
        let over = self.shown.plan.page(page).weight > self.shown.tree.limit;
        let mut out = format!("<g><title>{}</title>\n", title(self.shown, number));
        out += &node_box((x, y), self.box_width, page, over);
        let [name, weight, label] = lines(self.shown, number);
        out += &figures((x + self.box_width / 2, y), &name, &weight, &label);
        if self.shown.plan.page(page).first == number {
            out += &element::tag((x - 10, y - 12), TAG, page, over);
        }
        out + "</g>\n"
    }
}

/// What stands in a box: number, weight, and label or what is folded.
fn lines(shown: &Shown, number: usize) -> [String; 3] {
    let node = shown.tree.node(number);
    let last = match shown.fold(number).kind {
        Kind::One => node.label.to_string(),
        _ => shown.folded_as(number),
    };
    [shown.name(number), node.weight.to_string(), last]
}

/// What is told of a node where one points at it.
pub fn title(shown: &Shown, number: usize) -> String {
    let node = shown.tree.node(number);
    let (name, weight, label) = (shown.name(number), node.weight, node.label);
    let page = shown.plan.page_of(number);
    match shown.fold(number).kind {
        Kind::One => format!("node {name}, weight {weight}, label {label}, page {page}"),
        _ => format!(
            "nodes {name}, {}, weight {weight}, page {page}",
            shown.folded_as(number)
        ),
    }
}

/// Wide enough for every number, weight and label.
fn box_width(shown: &Shown) -> i32 {
    let lines = shown.tree.numbers().map(|number| lines(shown, number));
    let widths = lines.map(|[name, weight, label]| {
        let small = WEIGHT.width(&weight).max(LABELS.width(&label));
        NUMBER.width(&name).max(small)
    });
    LEAST_BOX_WIDTH.max(14 + widths.max().unwrap_or(0))
}

/// The upper side of each level. Where children spread far the drop is longer, or their lines would
/// run into one another.
fn levels(tree: &Tree, across: &[i32]) -> Vec<i32> {
    let mut spreads = vec![0; tree.count()];
    for number in tree.numbers().skip(1) {
        let node = tree.node(number);
        let spread = (across[number - 1] - across[node.parent - 1]).abs();
        spreads[node.depth] = spread.max(spreads[node.depth]);
    }
    let depths = tree.numbers().map(|number| tree.node(number).depth);
    let lowest = depths.max().unwrap_or(0);
    let mut levels = vec![0];
    for depth in 1..=lowest {
        let drop = (LEAST_DROP + spreads[depth] / 14).min(MOST_DROP);
        levels.push(levels[depth - 1] + BOX_HEIGHT + drop);
    }
    levels
}

pub fn bar(at: (i32, i32), size: (i32, i32), page: usize) -> String {
    let style = format!("fill=\"{}\" stroke=\"{}\"", light(page), dark(page));
    rect(at, size, 0, &style)
}

pub fn node_box(at: (i32, i32), width: i32, page: usize, over: bool) -> String {
    let (stroke, thick) = match over {
        true => (ALARM.to_string(), 3),
        false => (dark(page), 1),
    };
    let fill = light(page);
    let style = format!("fill=\"{fill}\" stroke=\"{stroke}\" stroke-width=\"{thick}\"");
    rect(at, (width, BOX_HEIGHT), 6, &style)
}

/// A node's number over its weight and its label, from the middle of the box's upper side.
pub fn figures((x, y): (i32, i32), number: &str, weight: &str, label: &str) -> String {
    let middle = "text-anchor=\"middle\"";
    let bold = format!(
        "{middle} font-weight=\"bold\" font-size=\"{}\"",
        NUMBER.size
    );
    let weight_style = format!("{middle} {}", WEIGHT.style());
    let small = format!(
        "{middle} {} font-style=\"italic\" fill=\"{LABEL}\"",
        LABELS.style()
    );
    text((x, y + 17), &bold, number)
        + &text((x, y + 33), &weight_style, weight)
        + &text((x, y + 48), &small, label)
}
