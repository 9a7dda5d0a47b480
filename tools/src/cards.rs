//! A large tree as cards: a card a page, with its nodes one below the other and a row for each page
//! that is cut from it. A page of one row that no page is cut from is a row of the page above.

use crate::element::counted;
use crate::fold::{Kind, Shown};
use crate::tree::Tree;
use std::iter::successors;

/// A level within a page is to the right of the one above it, and after so many the levels begin at
/// the left again.
pub const LEVELS: usize = 7;
/// So many nodes are shown of the way down to a page.
const WAY: usize = 12;

/// A line of a card.
#[derive(Clone, Debug, PartialEq, Eq)]
pub enum Row {
    /// What stands on the page, and how many levels below its run.
    Node {
        shown: usize,
        level: usize,
    },
    /// A page that is cut here.
    Cut {
        page: usize,
        level: usize,
    },
    Note(String),
    Sign(Sign),
}

impl Row {
    /// How many levels below the run it is, if it is of the tree.
    pub fn level(&self) -> Option<usize> {
        match *self {
            Row::Node { level, .. } | Row::Cut { level, .. } => Some(level),
            Row::Note(_) | Row::Sign(_) => None,
        }
    }
}

/// A line of the key.
#[derive(Clone, Copy, Debug, PartialEq, Eq)]
pub enum Sign {
    Node,
    Fold,
    /// A page with a card of its own, and one without.
    Cut,
    Slim,
    /// Where the levels begin at the left again.
    Level,
}

impl Sign {
    const ALL: [Sign; 5] = [Sign::Node, Sign::Fold, Sign::Cut, Sign::Slim, Sign::Level];
}

pub struct Card {
    /// 0 for the key.
    pub page: usize,
    pub rows: Vec<Row>,
}

/// How much of a page a card shows.
pub enum Detail {
    Whole,
    /// The way down to a page that is cut from it.
    Down(usize),
    /// The first rows.
    First(usize),
}

/// What all cards are made from: the tree as shown, and as it is.
pub struct Deck<'a> {
    pub tree: &'a Tree,
    pub shown: &'a Shown,
    /// Whether pages may be rows of others.
    has_rows: bool,
    /// For each page the one that it is cut from, 0 for page 1, and how many nodes it has.
    above: Vec<usize>,
    counts: Vec<usize>,
    /// For each page the shown nodes on it, and the pages cut from it, by their first node.
    rows: Vec<Vec<Row>>,
}

impl<'a> Deck<'a> {
    pub fn new(tree: &'a Tree, shown: &'a Shown, has_rows: bool) -> Deck<'a> {
        let plan = &shown.plan;
        let pages = plan.pages.len();
        let mut deck = Deck {
            tree,
            shown,
            has_rows,
            above: vec![0; pages],
            counts: vec![0; pages],
            rows: vec![vec![]; pages],
        };
        for number in shown.tree.numbers() {
            let (page, node) = (plan.page_of(number), shown.tree.node(number));
            let level_on = |page: usize| node.depth - shown.tree.node(plan.page(page).first).depth;
            if plan.page(page).first == number && page > 1 {
                let above = plan.page_of(node.parent);
                deck.above[page - 1] = above;
                let level = level_on(above);
                deck.rows[above - 1].push(Row::Cut { page, level });
            }
            let level = level_on(page);
            deck.counts[page - 1] += shown.fold(number).count();
            deck.rows[page - 1].push(Row::Node {
                shown: number,
                level,
            });
        }
        deck
    }

    /// The page that a page is cut from, 0 for page 1.
    pub fn above(&self, page: usize) -> usize {
        self.above[page - 1]
    }

    /// How many nodes a page has.
    pub fn count(&self, page: usize) -> usize {
        self.counts[page - 1]
    }

    /// The pages that are cut from a page.
    pub fn below(&self, page: usize) -> Vec<usize> {
        let cuts = self.rows[page - 1].iter().filter_map(|row| match row {
            Row::Cut { page, .. } => Some(*page),
            _ => None,
        });
        cuts.collect()
    }

    /// Whether a page is a row of the page above: it has one fold or one node only, and no page is
    /// cut from it.
    pub fn is_row(&self, page: usize) -> bool {
        self.has_rows && page > 1 && self.rows[page - 1].len() == 1
    }

    /// A card for each page that is no row of another.
    pub fn cards(&self) -> Vec<Card> {
        let pages = (1..=self.above.len()).filter(|&page| !self.is_row(page));
        pages.map(|page| self.card(page, Detail::Whole)).collect()
    }

    pub fn card(&self, page: usize, detail: Detail) -> Card {
        let all = &self.rows[page - 1];
        let way = match detail {
            Detail::Down(to) => self.way_down(to),
            _ => vec![],
        };
        let is_shown = |(index, row): &(usize, &Row)| match (&detail, row) {
            (Detail::Whole, _) => true,
            // A note in place of one row would save nothing.
            (Detail::First(count), _) => index < count || all.len() == count + 1,
            (Detail::Down(_), Row::Node { shown, .. }) => way.contains(shown),
            (Detail::Down(to), row) => matches!(row, Row::Cut { page, .. } if page == to),
        };
        let (shown, rest): (Vec<_>, Vec<_>) = all.iter().enumerate().partition(is_shown);
        let mut rows: Vec<Row> = shown.into_iter().map(|(_, row)| row.clone()).collect();
        if !rest.is_empty() {
            let rest = rest.into_iter().map(|(_, row)| row);
            rows.push(Row::Note(self.more(rest)));
        }
        Card { page, rows }
    }

    /// What is left out with these rows.
    fn more<'b>(&self, rows: impl Iterator<Item = &'b Row>) -> String {
        let (mut nodes, mut pages) = (0, 0);
        for row in rows {
            match row {
                Row::Node { shown, .. } => nodes += self.shown.fold(*shown).count(),
                _ => pages += 1,
            }
        }
        let counts = [(nodes, "more node"), (pages, "more page")];
        let counts = counts.into_iter().filter(|(count, _)| *count > 0);
        let told = counts.map(|(count, name)| format!("and {}", counted(count, name)));
        told.collect::<Vec<String>>().join(" ")
    }

    /// The last shown nodes of the page above on the way from its run to where a page is cut.
    fn way_down(&self, page: usize) -> Vec<usize> {
        let plan = &self.shown.plan;
        let parent = |number: usize| self.shown.tree.node(number).parent;
        let from = parent(plan.page(page).first);
        let is_on = |number: &usize| *number != 0 && plan.page_of(*number) == plan.page_of(from);
        let way = successors(Some(from), |&number| Some(parent(number)).filter(is_on));
        way.take(WAY).collect()
    }

    /// The key of some cards, as a card: a line for each sign that they have.
    pub fn key<'b>(&self, cards: impl IntoIterator<Item = &'b Card>) -> Card {
        let rows: Vec<&Row> = cards.into_iter().flat_map(|card| &card.rows).collect();
        let is_there = |sign: &Sign| rows.iter().any(|row| self.has_sign(row, *sign));
        let signs = Sign::ALL.into_iter().filter(is_there);
        let rows = signs.map(Row::Sign).collect();
        Card { page: 0, rows }
    }

    fn has_sign(&self, row: &Row, sign: Sign) -> bool {
        let is_fold = |shown: usize| self.shown.fold(shown).kind != Kind::One;
        match (sign, row) {
            (Sign::Node, Row::Node { .. }) => true,
            (Sign::Fold, Row::Node { shown, .. }) => is_fold(*shown),
            (Sign::Fold, Row::Cut { page, .. }) => {
                self.is_row(*page) && is_fold(self.shown.plan.page(*page).first)
            }
            (Sign::Cut, Row::Cut { page, .. }) => !self.is_row(*page),
            (Sign::Slim, Row::Cut { page, .. }) => self.is_row(*page),
            (Sign::Level, row) => row.level() >= Some(LEVELS),
            _ => false,
        }
    }
}

#[cfg(test)]
mod tests {
    use super::*;
    use crate::plan::Plan;
    use crate::tree::tests::case_e;

    fn node(shown: usize, level: usize) -> Row {
        Row::Node { shown, level }
    }

    fn cut(page: usize, level: usize) -> Row {
        Row::Cut { page, level }
    }

    fn shown(tree: &Tree, marks: &[u8]) -> Shown {
        Shown::whole(tree, &Plan::new(tree, marks.to_vec()).unwrap())
    }

    #[test]
    fn cards_of_case_e() {
        let tree = case_e();
        let shown = shown(&tree, &[1, 1, 2, 1, 2, 2]);
        let deck = Deck::new(&tree, &shown, false);
        let rows = |page| deck.card(page, Detail::Whole).rows;
        assert_eq!(rows(1), [node(1, 0), cut(2, 1)]);
        assert_eq!(rows(2), [node(2, 0), node(3, 0), cut(3, 1), node(6, 0)]);
        assert_eq!(rows(3), [node(4, 0), node(5, 0)]);
        assert_eq!([1, 2, 3].map(|page| deck.above(page)), [0, 1, 2]);
        assert_eq!([1, 2, 3].map(|page| deck.count(page)), [1, 3, 2]);
        assert_eq!(
            [1, 2, 3].map(|page| deck.below(page)),
            [vec![2], vec![3], vec![]]
        );
        let pages: Vec<usize> = deck.cards().iter().map(|card| card.page).collect();
        assert_eq!(pages, [1, 2, 3]);
        let key = [Row::Sign(Sign::Node), Row::Sign(Sign::Cut)];
        assert_eq!(deck.key(&deck.cards()).rows, key);
    }

    /// A page of one row stands on the page above, but not where a page is cut from it.
    #[test]
    fn pages_that_are_rows() {
        let tree = case_e();
        let shown = shown(&tree, &[1, 1, 1, 1, 1, 0]);
        let deck = Deck::new(&tree, &shown, true);
        let cards = deck.cards();
        let pages: Vec<usize> = cards.iter().map(|card| card.page).collect();
        assert_eq!(pages, [1, 3]);
        assert_eq!(
            cards[0].rows,
            [node(1, 0), cut(2, 1), cut(3, 1), node(6, 1)]
        );
        assert_eq!(cards[1].rows, [node(3, 0), cut(4, 1), cut(5, 1)]);
        let key = [Sign::Node, Sign::Cut, Sign::Slim].map(Row::Sign);
        assert_eq!(deck.key(&cards).rows, key);
    }

    /// A chain has a card a page, but for its end. The levels of a page that keeps much of it begin
    /// anew, and the key says so.
    #[test]
    fn chains() {
        let mut tree = Tree::new(9);
        (0..9).for_each(|depth| tree.add(depth, 1, 1));
        let cut_up = shown(&tree, &[1; 9]);
        let deck = Deck::new(&tree, &cut_up, true);
        let pages: Vec<usize> = deck.cards().iter().map(|card| card.page).collect();
        assert_eq!(pages, [1, 2, 3, 4, 5, 6, 7, 8]);
        let kept = shown(&tree, &[1, 0, 0, 0, 0, 0, 0, 0, 0]);
        let deck = Deck::new(&tree, &kept, true);
        let key = [Sign::Node, Sign::Level].map(Row::Sign);
        assert_eq!(deck.key(&deck.cards()).rows, key);
    }

    #[test]
    fn parts_of_a_page() {
        let tree = case_e();
        let shown = shown(&tree, &[1, 0, 0, 1, 1, 0]);
        let deck = Deck::new(&tree, &shown, false);
        let more = |more: &str| Row::Note(format!("and {more}"));
        let whole = [
            node(1, 0),
            node(2, 1),
            node(3, 1),
            cut(2, 2),
            cut(3, 2),
            node(6, 1),
        ];
        assert_eq!(deck.card(1, Detail::Whole).rows, whole);
        let down = [
            node(1, 0),
            node(3, 1),
            cut(3, 2),
            more("2 more nodes and 1 more page"),
        ];
        assert_eq!(deck.card(1, Detail::Down(3)).rows, down);
        assert_eq!(
            deck.card(1, Detail::First(2)).rows,
            [
                node(1, 0),
                node(2, 1),
                more("2 more nodes and 2 more pages")
            ]
        );
        // A note in place of one row would save nothing.
        assert_eq!(deck.card(1, Detail::First(5)).rows, whole);
    }
}
