//! Cards below one another, in columns.

use crate::cards::{Card, Deck};
use crate::colour::{dark, light};
use crate::element::{rect, text, FAINT};
use crate::fill::{self, height, Part, HEAD, SPACE};
use crate::letters::Letters;
use crate::line::{Columns, Head, Line, ROW};

/// Between columns.
const BESIDE: i32 = 10;
/// A column is at least so high, if there is so much to show.
const LEAST_HEIGHT: i32 = 420;
/// As wide as a card often is.
const USUAL_WIDTH: i32 = 250;

const HEADING: Letters = Letters::bold(13);

/// Cards with a heading, or an empty one, in columns of their own.
pub struct Group {
    pub heading: String,
    pub cards: Vec<Card>,
}

/// How high columns are, so that all of them are about four wide to three high, and about even.
fn column_height(deck: &Deck, groups: &[Group]) -> i32 {
    let cards = groups.iter().flat_map(|group| &group.cards);
    let heights = cards.map(|card| height(card.rows.len()) + SPACE);
    let least = LEAST_HEIGHT.min(heights.clone().max().unwrap_or(0));
    let tall = |area: i32| least.max((f64::from(area) * 0.75).sqrt() as i32);
    let guess = tall(heights.sum::<i32>() * USUAL_WIDTH);
    let stacks = stacked(deck, groups, guess);
    let across = stacks.iter().flatten().map(|stack| stack.width() + BESIDE);
    even(groups, tall(guess * across.sum::<i32>()))
}

/// The least height up to this that takes no more columns.
fn even(groups: &[Group], tall: i32) -> i32 {
    let columns = |tall: i32| -> usize {
        let groups = groups.iter();
        groups
            .map(|group| fill::columns(&group.cards, tall).len())
            .sum()
    };
    let most = columns(tall);
    let lower = (1..).map(|step| tall - step * ROW);
    let lower = lower.take_while(|&tall| tall >= LEAST_HEIGHT && columns(tall) <= most);
    lower.last().unwrap_or(tall)
}

/// The columns of each group.
fn stacked(deck: &Deck, groups: &[Group], tall: i32) -> Vec<Vec<Stack>> {
    let stacks = |group: &Group| {
        let columns = fill::columns(&group.cards, tall);
        columns
            .iter()
            .map(|parts| Stack::new(deck, parts))
            .collect()
    };
    groups.iter().map(stacks).collect()
}

/// A part of a card as it is drawn.
struct Piece {
    page: usize,
    down: i32,
    head: Head,
    lines: Vec<Line>,
}

impl Piece {
    fn new(deck: &Deck, part: &Part) -> Piece {
        Piece {
            page: part.page,
            down: part.down,
            head: deck.head(part.page, part.is_first),
            lines: deck.lines(part.rows),
        }
    }

    fn height(&self) -> i32 {
        height(self.lines.len())
    }

    /// From the upper left corner of its column.
    fn draw(&self, (x, y): (i32, i32), columns: &Columns) -> String {
        let y = y + self.down;
        let (fill, stroke) = match self.page {
            0 => ("#ffffff".to_string(), FAINT.to_string()),
            page => (light(page), dark(page)),
        };
        let style = format!("fill=\"{fill}\" stroke=\"{stroke}\" stroke-width=\"1\"");
        let mut out = rect((x, y), (columns.width, self.height()), 6, &style);
        out += &self.head.draw((x, y), columns.width);
        for (line, index) in self.lines.iter().zip(0..) {
            out += &line.draw((x, y + HEAD + ROW * index), columns);
        }
        out
    }
}

/// A column of cards, all as wide as its widest line needs, below the names of what they show.
struct Stack {
    names: Line,
    pieces: Vec<Piece>,
    columns: Columns,
}

impl Stack {
    fn new(deck: &Deck, parts: &[Part]) -> Stack {
        let names = Line::names();
        let pieces: Vec<Piece> = parts.iter().map(|part| Piece::new(deck, part)).collect();
        let heads = pieces.iter().map(|piece| piece.head.width());
        let least = heads.max().unwrap_or(0);
        let lines = pieces.iter().flat_map(|piece| &piece.lines);
        let lines: Vec<&Line> = lines.chain([&names]).collect();
        let columns = Columns::of(&lines, least);
        Stack {
            names,
            pieces,
            columns,
        }
    }

    fn width(&self) -> i32 {
        self.columns.width
    }

    fn height(&self) -> i32 {
        let last = self.pieces.last();
        last.map_or(0, |piece| piece.down + piece.height())
    }

    /// From the upper left corner of its first card.
    fn draw(&self, (x, y): (i32, i32)) -> String {
        let names = self.names.draw((x, y - ROW - 1), &self.columns);
        let pieces = self.pieces.iter();
        let pieces = pieces.map(|piece| piece.draw((x, y), &self.columns));
        names + &pieces.collect::<String>()
    }
}

pub struct Stacks<'a> {
    /// Stacks and headings, and where each begins across.
    stacks: Vec<(i32, Stack)>,
    headings: Vec<(i32, &'a str)>,
    /// The upper end of the cards, and the right end of all.
    top: i32,
    right: i32,
}

impl<'a> Stacks<'a> {
    /// The cards of these groups, from this corner on.
    pub fn new(deck: &Deck, groups: &'a [Group], (x, y): (i32, i32)) -> Stacks<'a> {
        let tall = column_height(deck, groups);
        let has_headings = groups.iter().any(|group| !group.heading.is_empty());
        let mut all = Stacks {
            stacks: vec![],
            headings: vec![],
            top: y + ROW * (1 + 2 * i32::from(has_headings)),
            right: x - BESIDE,
        };
        for (group, stacks) in groups.iter().zip(stacked(deck, groups, tall)) {
            all.put(&group.heading, stacks);
        }
        all
    }

    /// Puts a group to the right of what is there.
    fn put(&mut self, heading: &'a str, stacks: Vec<Stack>) {
        let from = self.right + BESIDE;
        for stack in stacks {
            let x = self.right + BESIDE;
            self.right = x + stack.width();
            self.stacks.push((x, stack));
        }
        self.headings.push((from, heading));
        self.right = self.right.max(from + HEADING.width(heading));
    }

    /// The lower right corner.
    pub fn end(&self) -> (i32, i32) {
        let heights = self.stacks.iter().map(|(_, stack)| stack.height());
        (self.right, self.top + heights.max().unwrap_or(0))
    }

    pub fn draw(&self) -> String {
        let headings = self.headings.iter();
        let headings = headings.filter(|(_, heading)| !heading.is_empty());
        let headings =
            headings.map(|(x, heading)| text((*x, self.top - ROW - 8), &HEADING.style(), heading));
        let stacks = self.stacks.iter();
        let stacks = stacks.map(|(x, stack)| stack.draw((*x, self.top)));
        headings.chain(stacks).collect()
    }
}
