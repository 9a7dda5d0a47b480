//! What the head and the rows of a card say.

use crate::cards::{Deck, Row, Sign, LEVELS};
use crate::element::counted;
use crate::fold::{range, Kind};
use crate::line::{Head, Line, Look};
use crate::picture::title;

impl Deck<'_> {
    /// The head of a card, or of a later part of it. The key has that of a sample.
    pub fn head(&self, page: usize, is_first: bool) -> Head {
        if page == 0 {
            return key_head();
        }
        let (weight, limit) = (self.shown.plan.page(page).weight, self.tree.limit);
        let over = self.is_over(page);
        let of = match over {
            true => "over",
            false => "of",
        };
        let head = Head {
            page,
            over,
            words: "continued".to_string(),
            on: None,
            weight: format!("{weight} {of} {limit}"),
            title: String::new(),
        };
        match (is_first, self.above(page)) {
            (false, _) => head,
            (true, 0) => Head {
                words: "the root page".to_string(),
                ..head
            },
            (true, above) => {
                let parent = self.tree.node(self.shown.run(page).0).parent;
                Head {
                    words: format!("below {parent} on"),
                    on: Some((above, self.is_over(above))),
                    title: format!("page {page}, below node {parent} on page {above}"),
                    ..head
                }
            }
        }
    }

    fn is_over(&self, page: usize) -> bool {
        self.shown.plan.page(page).weight > self.tree.limit
    }

    /// The lines of rows that stand one below the other. Where the indents begin anew, or go back
    /// to those of before, a line has its level as a mark.
    pub fn lines(&self, rows: &[Row]) -> Vec<Line> {
        let mut turn = 0;
        let mut lines = vec![];
        for row in rows {
            let mut line = self.line(row);
            if let Some(level) = row.level() {
                line.indents = level % LEVELS;
                line.mark = (level / LEVELS != turn).then_some(level);
                turn = level / LEVELS;
            }
            lines.push(line);
        }
        lines
    }

    fn line(&self, row: &Row) -> Line {
        match row {
            Row::Node { shown, .. } => self.node(*shown),
            Row::Cut { page, .. } => self.cut(*page),
            Row::Note(note) => Line::note(note),
            Row::Sign(sign) => sign_line(*sign),
        }
    }

    fn node(&self, number: usize) -> Line {
        let weight = self.shown.tree.node(number).weight.to_string();
        Line {
            title: title(self.shown, number),
            ..Line::new([&self.name(number), &weight, &self.labels(number)])
        }
    }

    /// A cut page by its tag and its run, or all of it where it has no card.
    fn cut(&self, page: usize) -> Line {
        let run = self.shown.plan.page(page);
        let tag = Some((page, self.is_over(page)));
        if self.is_row(page) {
            let look = Look::Slim(page);
            return Line {
                look,
                tag,
                ..self.node(run.first)
            };
        }
        let (first, last) = self.shown.run(page);
        let (name, weight) = (range(first, last), run.weight.to_string());
        let nodes = counted(self.count(page), "node");
        Line {
            tag,
            ..Line::new([&name, &weight, &nodes])
        }
    }

    /// A node's number, or the numbers of a fold and what it folds.
    fn name(&self, number: usize) -> String {
        let name = self.shown.name(number);
        match self.shown.fold(number).kind {
            Kind::One => name,
            _ => format!("{name}: {}", self.shown.folded_as(number)),
        }
    }

    /// The label, or the first and the last of those that are folded.
    fn labels(&self, number: usize) -> String {
        let fold = self.shown.fold(number);
        let label = |number: usize| self.tree.node(number).label;
        match fold.kind {
            Kind::One => label(fold.first).to_string(),
            _ => format!("{} .. {}", label(fold.first), label(fold.last)),
        }
    }
}

fn key_head() -> Head {
    Head {
        page: 2,
        over: false,
        words: "a card a page: below a node on".to_string(),
        on: Some((1, false)),
        weight: "weight of limit".to_string(),
        title: String::new(),
    }
}

fn sign_line(sign: Sign) -> Line {
    match sign {
        Sign::Node => Line::new(["node, right of its parent", "weight", "label"]),
        Sign::Fold => Line::new(["3\u{2013}9: 7 leaves, or a chain", "sum", "first .. last"]),
        Sign::Cut => Line {
            tag: Some((3, false)),
            ..Line::new(["run of a page that is cut here", "weight", "nodes"])
        },
        Sign::Slim => Line {
            look: Look::Slim(4),
            tag: Some((4, false)),
            ..Line::new(["all of a page, with no card", "weight", "label"])
        },
        Sign::Level => Line {
            mark: Some(LEVELS),
            ..Line::note("level, where indents begin anew or go back")
        },
    }
}

#[cfg(test)]
mod tests {
    use super::*;
    use crate::cards::Detail;
    use crate::fold::Shown;
    use crate::plan::Plan;
    use crate::tree::Tree;

    /// The marks and indents of page 1, in a tree of these depths and marks.
    fn indents(depths: &[usize], marks: &[u8], detail: Detail) -> Vec<(Option<usize>, usize)> {
        let mut tree = Tree::new(9);
        depths.iter().for_each(|&depth| tree.add(depth, 1, 1));
        let shown = Shown::whole(&tree, &Plan::new(&tree, marks.to_vec()).unwrap());
        let deck = Deck::new(&tree, &shown, true);
        let lines = deck.lines(&deck.card(1, detail).rows);
        lines.iter().map(|line| (line.mark, line.indents)).collect()
    }

    /// The row where indents begin anew has a mark, be it a node's or that of a page cut there, and
    /// so has the row where they go back.
    #[test]
    fn levels_are_marked() {
        let depths = [0, 1, 2, 3, 4, 5, 6, 7, 7, 8, 3, 1];
        let mut marks = [1, 0, 0, 0, 0, 0, 0, 0, 0, 0, 0, 0];
        let mut wanted = vec![
            (None, 0),
            (None, 1),
            (None, 2),
            (None, 3),
            (None, 4),
            (None, 5),
            (None, 6),
            (Some(7), 0),
            (None, 0),
            (None, 1),
            (Some(3), 3),
            (None, 1),
        ];
        assert_eq!(indents(&depths, &marks, Detail::Whole), wanted);
        marks[7] = 1;
        assert_eq!(indents(&depths, &marks, Detail::Whole), wanted);
        // A note has no level.
        wanted.truncate(10);
        wanted.push((None, 0));
        assert_eq!(indents(&depths, &marks, Detail::First(10)), wanted);
    }
}
