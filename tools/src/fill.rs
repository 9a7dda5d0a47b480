//! Cards divided into columns of one height. A card that is longer than its column goes on in the
//! next.

use crate::cards::{Card, Row};
use crate::line::ROW;

/// The height of a card's head, and what is left free below its last row.
pub const HEAD: i32 = 21;
const FOOT: i32 = 4;
/// Between cards, one below the other.
pub const SPACE: i32 = 8;
/// A card that is begun in a column has at least so many rows there, and so few that are left of
/// one are put below the end of the column.
const LEAST_ROWS: i32 = 5;
const REST: usize = 2;

/// The height of a card with so many rows.
pub fn height(rows: usize) -> i32 {
    HEAD + ROW * rows as i32 + FOOT
}

/// A part of a card, so far below the top of its column.
pub struct Part<'a> {
    pub page: usize,
    pub rows: &'a [Row],
    pub is_first: bool,
    pub down: i32,
}

/// The parts in each column of this height.
pub fn columns(cards: &[Card], tall: i32) -> Vec<Vec<Part<'_>>> {
    let mut filling = Filling {
        tall,
        columns: vec![vec![]],
        down: 0,
    };
    cards.iter().for_each(|card| filling.put(card));
    filling.columns
}

/// Columns that are being filled: the last of them as far as this.
struct Filling<'a> {
    tall: i32,
    columns: Vec<Vec<Part<'a>>>,
    down: i32,
}

impl<'a> Filling<'a> {
    fn put(&mut self, card: &'a Card) {
        if self.down > 0 && !self.is_begun(card) {
            self.next_column();
        }
        let mut rest = &card.rows[..];
        while !rest.is_empty() {
            let is_first = rest.len() == card.rows.len();
            if !is_first {
                self.next_column();
            }
            let (rows, after) = rest.split_at(self.fitting(rest.len()));
            self.put_part(card.page, rows, is_first);
            rest = after;
        }
    }

    fn put_part(&mut self, page: usize, rows: &'a [Row], is_first: bool) {
        let part = Part {
            page,
            rows,
            is_first,
            down: self.down,
        };
        self.down += height(rows.len()) + SPACE;
        self.columns.last_mut().expect("a column").push(part);
    }

    fn next_column(&mut self) {
        self.columns.push(vec![]);
        self.down = 0;
    }

    /// Whether a card is begun in this column: it fits, or is so long that it is better divided.
    fn is_begun(&self, card: &Card) -> bool {
        let (height, room) = (height(card.rows.len()), self.tall - self.down);
        let is_long = height >= self.tall / 2 && room >= HEAD + ROW * LEAST_ROWS;
        height <= room || is_long
    }

    /// How many of so many rows go into this column.
    fn fitting(&self, rows: usize) -> usize {
        let room = (self.tall - self.down - HEAD - FOOT) / ROW;
        let room = room.max(1) as usize;
        match rows <= room + REST {
            true => rows,
            false => room,
        }
    }
}

#[cfg(test)]
mod tests {
    use super::*;

    fn card(page: usize, rows: usize) -> Card {
        let row = |shown| Row::Node { shown, level: 0 };
        let rows = (1..=rows).map(row).collect();
        Card { page, rows }
    }

    /// The page and the number of rows of each part.
    fn parts(cards: &[Card], rows: usize) -> Vec<Vec<(usize, usize)>> {
        let columns = columns(cards, height(rows));
        let columns = columns.iter();
        columns
            .map(|parts| {
                parts
                    .iter()
                    .map(|part| (part.page, part.rows.len()))
                    .collect()
            })
            .collect()
    }

    #[test]
    fn cards_fill_columns() {
        // Two that fit, and one that does not.
        let cards = [card(1, 4), card(2, 3), card(3, 3)];
        assert_eq!(parts(&cards, 10), [vec![(1, 4), (2, 3)], vec![(3, 3)]]);
        // A long one is begun where there is room, and goes on.
        let cards = [card(1, 2), card(2, 25), card(3, 1)];
        assert_eq!(
            parts(&cards, 10),
            [
                vec![(1, 2), (2, 5)],
                vec![(2, 10)],
                vec![(2, 10)],
                vec![(3, 1)]
            ]
        );
        // Two rows are not put into a column of their own.
        assert_eq!(parts(&[card(1, 12)], 10), [[(1, 12)]]);
        assert_eq!(parts(&[card(1, 13)], 10), [[(1, 10)], [(1, 3)]]);
    }

    #[test]
    fn parts_stand_below_one_another() {
        let cards = [card(1, 4), card(2, 30)];
        let columns = columns(&cards, height(20));
        let downs = columns.iter().flatten().map(|part| part.down);
        assert_eq!(downs.collect::<Vec<i32>>(), [0, height(4) + SPACE, 0]);
        let firsts = columns.iter().flatten().map(|part| part.is_first);
        assert_eq!(firsts.collect::<Vec<bool>>(), [true, true, false]);
    }
}
