//! The legend: what the signs mean, and each page's first node, last sibling and weight.

use crate::colour::{dark, light};
use crate::element::{path, rect, tag, tag_width, text, ALARM, FAINT, TAG};
use crate::letters::Letters;
use crate::picture::{bar, figures, node_box, BOX_HEIGHT, CUT, KEPT};
use crate::plan::{Page, Plan};

const ROW: i32 = 24;
const SPACE: i32 = 44;
const KEY_WIDTH: i32 = 260;
/// The width of the key's signs, and where its words begin.
const SIGN: i32 = 40;
const WORDS: i32 = 56;
/// Right ends of the columns of first, last and weight, at the least.
const LEAST_ENDS: [i32; 3] = [90, 140, 204];
/// Between the texts of a row, and at its right end.
const GAP: i32 = 12;
/// A tree up to this width has its legend beside it, a wider one below.
const NARROW: i32 = 560;
/// The list goes down so many rows, at the least, before it takes another column.
const LEAST_ROWS: usize = 8;

const FIGURES: Letters = Letters::plain(12);
const FLAG: Letters = Letters::bold(13);
const NAMES: [&str; 3] = ["first", "last", "weight"];

/// A sign of the key, in the colours of page 1, from the middle of its left side.
type Sign = fn((i32, i32)) -> String;

const SIGNS: [(Sign, &str); 5] = [
    (tag_sign, "page, at its first node"),
    (kept_sign, "on its parent's page"),
    (cut_sign, "cut from its parent"),
    (run_sign, "run of siblings on one page"),
    (over_sign, "page over the limit"),
];

pub struct Legend<'a> {
    plan: &'a Plan,
    limit: u32,
    /// The upper left corners of the key and of the list.
    key: (i32, i32),
    list: (i32, i32),
    rows: usize,
    /// Right ends of the columns of first, last and weight.
    ends: [i32; 3],
}

impl<'a> Legend<'a> {
    /// The legend of a tree that is drawn from this corner on, in this size.
    pub fn new(plan: &'a Plan, limit: u32, corner: (i32, i32), size: (i32, i32)) -> Legend<'a> {
        let legend = Legend {
            plan,
            limit,
            key: corner,
            list: corner,
            rows: LEAST_ROWS,
            ends: ends(plan, limit),
        };
        match size.0 <= NARROW {
            true => legend.beside(size),
            false => legend.below(size),
        }
    }

    /// The key over the list, which goes as far down as the tree.
    fn beside(mut self, size: (i32, i32)) -> Legend<'a> {
        let low = self.key.1 + size.1;
        self.key.0 += size.0 + SPACE;
        self.list = (self.key.0, self.key.1 + self.key_height() + ROW);
        let room = (low - self.list.1) / ROW - 1;
        self.rows = self.rows.max(room.max(0) as usize);
        self
    }

    /// The key left of the list, which is as wide as the tree.
    fn below(mut self, size: (i32, i32)) -> Legend<'a> {
        let right = self.key.0 + size.0;
        self.key.1 += size.1 + SPACE;
        self.list = (self.key.0 + KEY_WIDTH + SPACE, self.key.1);
        let columns = (right - self.list.0) / self.column_width();
        let pages = self.plan.pages.len();
        self.rows = self.rows.max(pages.div_ceil(columns.max(1) as usize));
        self
    }

    /// The lower right corner.
    pub fn end(&self) -> (i32, i32) {
        let rows = self.rows.min(self.plan.pages.len()) as i32 + 1;
        let right = self.list.0 + self.columns() as i32 * self.column_width();
        let low = self.list.1 + rows * ROW;
        let key = (self.key.0 + KEY_WIDTH, self.key.1 + self.key_height());
        (right.max(key.0), low.max(key.1))
    }

    pub fn draw(&self) -> String {
        let pages = 1..=self.plan.pages.len();
        let heads: String = (0..self.columns())
            .map(|column| self.head(column))
            .collect();
        let rows: String = pages.map(|page| self.row(page)).collect();
        self.draw_key() + &heads + &rows
    }

    fn columns(&self) -> usize {
        self.plan.pages.len().div_ceil(self.rows)
    }

    fn list_width(&self) -> i32 {
        self.ends[2] + GAP
    }

    fn column_width(&self) -> i32 {
        let flag = match self.any_over() {
            true => 8 + FLAG.width(&self.flag(self.heaviest())),
            false => 0,
        };
        self.list_width() + flag + SPACE / 2
    }

    /// What is said of a page of this weight, which is over the limit.
    fn flag(&self, weight: u32) -> String {
        format!("over by {}", weight - self.limit)
    }

    fn any_over(&self) -> bool {
        self.heaviest() > self.limit
    }

    fn heaviest(&self) -> u32 {
        let weights = self.plan.pages.iter().map(|page| page.weight);
        weights.max().unwrap_or(0)
    }

    fn key_height(&self) -> i32 {
        BOX_HEIGHT + self.signs().len() as i32 * ROW
    }

    /// The last sign is wanted only where a page is over the limit.
    fn signs(&self) -> &'static [(Sign, &'static str)] {
        match self.any_over() {
            true => &SIGNS,
            false => &SIGNS[..SIGNS.len() - 1],
        }
    }

    fn draw_key(&self) -> String {
        let (x, y) = self.key;
        let mut out =
            node_box((x, y), SIGN, 1, false) + &figures((x + SIGN / 2, y), "n", "w", "label");
        out += &text((x + WORDS, y + 32), "", "node, its weight and its label");
        for ((sign, meaning), row) in self.signs().iter().zip(1..) {
            let y = y + BOX_HEIGHT + row * ROW - ROW / 3;
            out += &sign((x, y));
            out += &text((x + WORDS, y + 5), "", meaning);
        }
        out
    }

    fn head(&self, column: usize) -> String {
        let (x, y) = self.list;
        let (x, y) = (x + column as i32 * self.column_width(), y + 13);
        let names = NAMES.iter().zip(self.ends);
        let names = names.map(|(name, end)| text((x + end, y), &end_style(), name));
        text((x + 2, y), &FIGURES.style(), "page") + &names.collect::<String>()
    }

    fn row(&self, number: usize) -> String {
        let page = &self.plan.pages[number - 1];
        let (column, row) = ((number - 1) / self.rows, (number - 1) % self.rows + 1);
        let x = self.list.0 + column as i32 * self.column_width();
        let y = self.list.1 + row as i32 * ROW;
        let over = page.weight > self.limit;
        let (light, dark) = (light(number), dark(number));
        let style = format!("fill=\"{light}\" stroke=\"{dark}\" stroke-width=\"0.5\"");
        let mut out = rect((x, y), (self.list_width(), ROW - 4), 4, &style);
        out += &tag((x + 4, y + 2), TAG, number, over);
        for (figure, end) in figures_of(page).iter().zip(self.ends) {
            out += &text((x + end, y + 15), &end_style(), figure);
        }
        if over {
            let style = format!("fill=\"{ALARM}\" {}", FLAG.style());
            let at = (x + self.list_width() + 8, y + 15);
            out += &text(at, &style, &self.flag(page.weight));
        }
        out
    }
}

fn end_style() -> String {
    format!("{} text-anchor=\"end\"", FIGURES.style())
}

/// First node, last sibling and weight of a page.
fn figures_of(page: &Page) -> [String; 3] {
    let Page {
        first,
        last,
        weight,
    } = page;
    [first.to_string(), last.to_string(), weight.to_string()]
}

/// Right ends of the columns of the list, with room for each page's tag and figures.
fn ends(plan: &Plan, limit: u32) -> [i32; 3] {
    let tags = plan.pages.iter().zip(1..);
    let tags = tags.map(|(page, number)| 4 + tag_width(TAG, number, page.weight > limit));
    let mut end = tags.max().unwrap_or(0);
    let mut ends = LEAST_ENDS;
    for (column, name) in NAMES.iter().enumerate() {
        let figures = plan
            .pages
            .iter()
            .map(|page| figures_of(page)[column].clone());
        let widths = figures.map(|figure| FIGURES.width(&figure));
        let widest = widths.max().unwrap_or(0).max(FIGURES.width(name));
        end = LEAST_ENDS[column].max(end + GAP + widest);
        ends[column] = end;
    }
    ends
}

fn tag_sign((x, y): (i32, i32)) -> String {
    tag((x + 11, y - 8), TAG, 1, false)
}

fn kept_sign((x, y): (i32, i32)) -> String {
    let style = format!("{KEPT} stroke=\"{}\"", dark(1));
    path(&format!("M{x} {y}h{SIGN}"), &style)
}

fn cut_sign((x, y): (i32, i32)) -> String {
    let style = format!("{CUT} stroke=\"{FAINT}\"");
    path(&format!("M{x} {y}h{SIGN}"), &style)
}

/// Two siblings and the bar between them.
fn run_sign((x, y): (i32, i32)) -> String {
    let style = format!("fill=\"{}\" stroke=\"{}\"", light(1), dark(1));
    let sibling = |x| rect((x, y - 8), (14, 16), 3, &style);
    bar((x + 7, y - 4), (26, 8), 1) + &sibling(x) + &sibling(x + 26)
}

fn over_sign((x, y): (i32, i32)) -> String {
    let style = format!("fill=\"none\" stroke=\"{ALARM}\" stroke-width=\"3\"");
    rect((x + 8, y - 8), (24, 16), 4, &style)
}
