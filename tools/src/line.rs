//! The lines of a card as texts with tags and marks, how wide they are, and how they are drawn.

use crate::colour::{dark, light};
use crate::element::{
    level_mark, level_width, rect, tag, tag_width, text, titled, ALARM, INK, LABEL, TAG,
};
use crate::letters::Letters;

/// The height of a row.
pub const ROW: i32 = 16;
/// The height of a tag in a row.
const SMALL: i32 = 14;
/// Between a side of the card and what stands in it.
const SIDE: i32 = 8;
/// Between the texts of a line, at the least.
const GAP: i32 = 14;
/// Between a tag or a mark and a text.
const NEAR: i32 = 5;
/// A level is this much to the right of the one above it.
const INDENT: i32 = 8;

const PLAIN: Letters = Letters::plain(11);
const BOLD: Letters = Letters::bold(11);
const NAMES: Letters = Letters::plain(10);

/// How a row looks.
#[derive(Clone, Copy, PartialEq, Eq)]
pub enum Look {
    /// The names of the columns.
    Names,
    Plain,
    /// A page that is a row, in its own colours.
    Slim(usize),
}

/// A row of a card.
pub struct Line {
    pub look: Look,
    /// The level, where the indents begin anew.
    pub mark: Option<usize>,
    /// How many indents it has.
    pub indents: usize,
    /// A page that is cut here, and whether it is over the limit.
    pub tag: Option<(usize, bool)>,
    pub name: String,
    /// A note has no weight and no label, and goes as far as it needs.
    pub weight: String,
    pub label: String,
    /// What is told where one points at the row.
    pub title: String,
}

impl Line {
    pub fn new([name, weight, label]: [&str; 3]) -> Line {
        Line {
            look: Look::Plain,
            mark: None,
            indents: 0,
            tag: None,
            name: name.to_string(),
            weight: weight.to_string(),
            label: label.to_string(),
            title: String::new(),
        }
    }

    pub fn note(words: &str) -> Line {
        Line::new([words, "", ""])
    }

    /// The names of the columns.
    pub fn names() -> Line {
        Line {
            look: Look::Names,
            ..Line::new(["node", "weight", "label"])
        }
    }

    fn letters(&self) -> Letters {
        match self.look {
            Look::Names => NAMES,
            _ => PLAIN,
        }
    }

    fn is_note(&self) -> bool {
        self.weight.is_empty()
    }

    fn mark_width(&self) -> i32 {
        self.mark.map_or(0, |level| level_width(level) + NEAR)
    }

    fn tag_width(&self) -> i32 {
        let width = |(page, over)| tag_width(SMALL, page, over) + NEAR;
        self.tag.map_or(0, width)
    }

    fn indent(&self) -> i32 {
        INDENT * self.indents as i32
    }

    fn name_width(&self) -> i32 {
        self.indent() + self.tag_width() + self.letters().width(&self.name)
    }

    pub fn draw(&self, (x, y): (i32, i32), columns: &Columns) -> String {
        let from = x + columns.names + self.indent();
        let mut out = String::new();
        if let Look::Slim(page) = self.look {
            let end = x + columns.labels + SIDE / 2;
            out += &slim((from, y + 1), end - from, page);
        }
        if let Some(level) = self.mark {
            out += &level_mark((x + SIDE, y + 2), SMALL - 2, level);
        }
        if let Some((page, over)) = self.tag {
            out += &tag((from, y + 1), SMALL, page, over);
        }
        titled(&self.title, out + &self.draw_texts((x, y + 12), columns))
    }

    fn draw_texts(&self, (x, y): (i32, i32), columns: &Columns) -> String {
        let from = x + columns.names + self.indent() + self.tag_width();
        let letters = self.letters().style();
        let faint = format!("{letters} fill=\"{LABEL}\"");
        let (style, end) = match self.look {
            Look::Names => (&faint, format!("{faint} text-anchor=\"end\"")),
            _ if self.is_note() => (&faint, String::new()),
            _ => (&letters, format!("{letters} text-anchor=\"end\"")),
        };
        let italic = format!("{faint} text-anchor=\"end\" font-style=\"italic\"");
        let texts = [
            (from, style, &self.name),
            (x + columns.weights, &end, &self.weight),
            (x + columns.labels, &italic, &self.label),
        ];
        let texts = texts.iter().filter(|(_, _, content)| !content.is_empty());
        texts
            .map(|(x, style, content)| text((*x, y), style, content))
            .collect()
    }
}

/// What a page that is a row stands on.
fn slim(at: (i32, i32), width: i32, page: usize) -> String {
    let (light, dark) = (light(page), dark(page));
    let style = format!("fill=\"{light}\" stroke=\"{dark}\" stroke-width=\"0.5\"");
    rect(at, (width, SMALL), SMALL / 2, &style)
}

/// The line above the rows of a card: its page, where it is cut, and its weight.
pub struct Head {
    pub page: usize,
    pub over: bool,
    pub words: String,
    /// The page that these words end with, and whether it is over the limit.
    pub on: Option<(usize, bool)>,
    pub weight: String,
    pub title: String,
}

impl Head {
    /// The letters of the weight.
    fn letters(&self) -> Letters {
        match self.over {
            true => BOLD,
            false => PLAIN,
        }
    }

    /// Where the words begin, and where they end.
    fn words(&self) -> (i32, i32) {
        let from = NEAR + tag_width(TAG, self.page, self.over) + NEAR;
        (from, from + PLAIN.width(&self.words))
    }

    pub fn width(&self) -> i32 {
        let on = |(page, over)| NEAR + tag_width(SMALL, page, over);
        let on = self.on.map_or(0, on);
        self.words().1 + on + GAP + self.letters().width(&self.weight) + SIDE
    }

    pub fn draw(&self, (x, y): (i32, i32), width: i32) -> String {
        let (from, to) = self.words();
        let mut out = tag((x + NEAR, y + 3), TAG, self.page, self.over);
        out += &text((x + from, y + 15), &PLAIN.style(), &self.words);
        if let Some((page, over)) = self.on {
            out += &tag((x + to + NEAR, y + 4), SMALL, page, over);
        }
        let colour = match self.over {
            true => ALARM,
            false => INK,
        };
        let letters = self.letters().style();
        let style = format!("{letters} fill=\"{colour}\" text-anchor=\"end\"");
        out += &text((x + width - SIDE, y + 15), &style, &self.weight);
        titled(&self.title, out)
    }
}

/// Where the columns of lines begin or end, so that each line has room.
pub struct Columns {
    /// Where names begin, right of the marks.
    names: i32,
    /// Right ends of weights and labels.
    weights: i32,
    labels: i32,
    pub width: i32,
}

impl Columns {
    /// For these lines, in a card of at least this width.
    pub fn of(lines: &[&Line], least: i32) -> Columns {
        let widest = |width: &dyn Fn(&Line) -> i32| {
            let widths = lines.iter().map(|line| width(line));
            widths.max().unwrap_or(0)
        };
        let names = SIDE + widest(&Line::mark_width);
        let column = |line: &Line| match line.is_note() {
            true => 0,
            false => line.name_width(),
        };
        let weight = |line: &Line| line.letters().width(&line.weight);
        let label = |line: &Line| line.letters().width(&line.label);
        let weights = names + widest(&column) + GAP + widest(&weight);
        let labels = weights + GAP + widest(&label);
        let right = labels.max(names + widest(&Line::name_width));
        let width = least.max(right + SIDE);
        let slack = width - SIDE - labels;
        Columns {
            names,
            weights: weights + slack,
            labels: labels + slack,
            width,
        }
    }
}
