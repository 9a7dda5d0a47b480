//! A tree with a plan as an SVG: a heading, then the tree and its legend or, where they would be too
//! large to be read, cards.

use crate::cards::{Card, Deck, Detail};
use crate::element::{counted, rect, text, INK};
use crate::fold::Shown;
use crate::legend::Legend;
use crate::letters::Letters;
use crate::picture::Picture;
use crate::plan::Plan;
use crate::stacks::{Group, Stacks};
use crate::tree::Tree;

const MARGIN: i32 = 28;
/// Room for the heading.
const TOP: i32 = 74;
const HEADING: Letters = Letters::bold(16);
/// A tree of more nodes is folded.
const FEW: usize = 200;
/// A tree that needs more is shown as cards.
const WIDEST: i32 = 2400;
const HIGHEST: i32 = 1600;
/// So many rows are shown of a page that is drawn, so many pages that are cut from it, and so many
/// rows of each of these.
const ROWS: usize = 200;
const PAGES: usize = 30;
const ROWS_BELOW: usize = 6;

pub fn draw(tree: &Tree, plan: &Plan) -> String {
    let shown = match tree.count() {
        count if count <= FEW => Shown::whole(tree, plan),
        _ => Shown::folded(tree, plan),
    };
    let heading = heading(tree, plan);
    draw_tree(tree, plan, &shown, &heading).unwrap_or_else(|| {
        let deck = Deck::new(tree, &shown, true);
        let mut cards = deck.cards();
        cards.insert(0, deck.key(&cards));
        let group = Group {
            heading: String::new(),
            cards,
        };
        draw_cards(&deck, &[group], &heading)
    })
}

/// One page, with the page that it is cut from and those cut from it.
pub fn draw_page(tree: &Tree, plan: &Plan, page: usize) -> String {
    let is_on = |number: &usize| plan.page_of(*number) == page;
    let shown = match tree.numbers().filter(is_on).count() {
        count if count <= FEW => Shown::whole(tree, plan),
        _ => Shown::folded(tree, plan),
    };
    let deck = Deck::new(tree, &shown, false);
    let heading = format!("page {page} of {}", heading(tree, plan));
    draw_cards(&deck, &around(&deck, page), &heading)
}

/// A page, the page that it is cut from and those cut from it, as many as can be seen at once.
fn around(deck: &Deck, page: usize) -> Vec<Group> {
    let group = |heading: &str, cards| Group {
        heading: heading.to_string(),
        cards,
    };
    let above = match deck.above(page) {
        0 => vec![],
        above => vec![deck.card(above, Detail::Down(page))],
    };
    let cut = deck.below(page);
    let below = cut.iter().take(PAGES);
    let below = below.map(|&page| deck.card(page, Detail::First(ROWS_BELOW)));
    let below: Vec<Card> = below.collect();
    let mut itself = vec![deck.card(page, Detail::First(ROWS))];
    itself.insert(0, deck.key(above.iter().chain(&itself).chain(&below)));
    let groups = [
        group("the page that it is cut from", above),
        group("the page", itself),
        group(&cut_heading(cut.len()), below),
    ];
    let groups = groups.into_iter();
    groups.filter(|group| !group.cards.is_empty()).collect()
}

/// What stands over the cards of the pages that are cut from a page, so many in all.
fn cut_heading(pages: usize) -> String {
    match pages.saturating_sub(PAGES) {
        0 => "the pages cut from it".to_string(),
        more => {
            let more = counted(more, "more page");
            format!("the first {PAGES} pages cut from it, and {more}")
        }
    }
}

/// The tree with lines from parents to children, if it is not too large.
fn draw_tree(tree: &Tree, plan: &Plan, shown: &Shown, heading: &str) -> Option<String> {
    let corner = (MARGIN, TOP);
    let picture = Picture::new(shown, corner);
    let legend = Legend::new(plan, tree.limit, corner, picture.size());
    let (width, height) = picture.size();
    let (right, low) = legend.end();
    let end = (right.max(MARGIN + width), low.max(TOP + height));
    if end.0 > WIDEST || end.1 > HIGHEST {
        return None;
    }
    Some(page(heading, end, picture.draw() + &legend.draw()))
}

fn draw_cards(deck: &Deck, groups: &[Group], heading: &str) -> String {
    let stacks = Stacks::new(deck, groups, (MARGIN, TOP - 18));
    page(heading, stacks.end(), stacks.draw())
}

/// A picture with its heading, as far as this lower right corner.
fn page(heading: &str, (right, low): (i32, i32), content: String) -> String {
    let right = right.max(MARGIN + HEADING.width(heading));
    let (width, height) = (right + MARGIN, low + MARGIN);
    let body = [
        format!("<title>{heading}</title>\n"),
        rect((0, 0), (width, height), 0, "fill=\"#ffffff\""),
        text((MARGIN, 40), &HEADING.style(), heading),
        content,
    ];
    format!(
        "<svg xmlns=\"http://www.w3.org/2000/svg\" viewBox=\"0 0 {width} {height}\" \
         width=\"{width}\" height=\"{height}\" fill=\"{INK}\" font-size=\"13\" \
         font-family=\"DejaVu Sans, Verdana, Arial, sans-serif\">\n{}</svg>\n",
        body.concat()
    )
}

fn heading(tree: &Tree, plan: &Plan) -> String {
    let nodes = counted(tree.count(), "node");
    let pages = counted(plan.pages.len(), "page");
    let (root, limit) = (plan.pages[0].weight, tree.limit);
    format!("{nodes}, {pages}, root page {root}, limit {limit}")
}

#[cfg(test)]
mod tests {
    use super::*;
    use crate::plan;
    use crate::table;
    use crate::tree::tests::{case_e, random_tree};
    use balduqen::MAX_NODES;

    fn drawn(tree: &Tree, marks: &str) -> String {
        let (marks, _) = plan::read_marks(tree, marks).unwrap();
        draw(tree, &Plan::new(tree, marks).unwrap())
    }

    #[test]
    fn case_e_is_the_picture_in_the_documents() {
        let picture = include_str!("../../docs/case-e.svg");
        assert_eq!(drawn(&case_e(), include_str!("../samples/e.plan")), picture);
        assert_eq!(drawn(&case_e(), "1 1 2 1 2 2"), picture);
        assert!(picture.contains("6 nodes, 3 pages, root page 5, limit 5"));
        assert!(!picture.contains("over"));
    }

    #[test]
    fn heavy_pages_are_flagged() {
        let picture = drawn(&case_e(), "1 0 0 1 0 0");
        assert!(picture.contains("page over the limit"));
        assert_eq!(picture.matches("over by 6").count(), 1);
        assert_eq!(picture.matches("over by").count(), 1);
        // Page 1's tag stands in the picture and in the list.
        assert_eq!(picture.matches(">1!<").count(), 2);
    }

    #[test]
    fn every_node_and_page_is_there() {
        for count in [1, 2, 30, 60] {
            let tree = random_tree(7, count);
            let picture = drawn(&tree, &"1 ".repeat(count));
            for number in tree.numbers() {
                let (weight, label) = (tree.node(number).weight, tree.node(number).label);
                let title =
                    format!(">node {number}, weight {weight}, label {label}, page {number}<");
                assert_eq!(picture.matches(&title).count(), 1);
            }
            // The rows of the list.
            assert_eq!(picture.matches("rx=\"4\"").count(), count);
        }
    }

    /// How many nodes are told, each by itself or in a fold; each is told once.
    fn nodes_told(picture: &str) -> usize {
        let titles = picture.split("<title>").skip(1);
        let named = titles.filter_map(|rest| {
            let title = rest.split('<').next()?;
            let names = title
                .strip_prefix("nodes ")
                .or(title.strip_prefix("node "))?;
            let (names, _) = names.split_once(',')?;
            let (first, last) = names.split_once('\u{2013}').unwrap_or((names, names));
            Some(first.parse().ok()?..=last.parse().ok()?)
        });
        let mut told: Vec<usize> = named.flatten().collect();
        let count = told.len();
        told.sort_unstable();
        told.dedup();
        assert_eq!(told.len(), count, "a node is told twice");
        count
    }

    fn size(picture: &str) -> (usize, usize) {
        let side = |name: &str| {
            let (_, rest) = picture.split_once(&format!(" {name}=\"")).unwrap();
            rest.split('"').next().unwrap().parse().unwrap()
        };
        (side("width"), side("height"))
    }

    /// A tree by the depths of its nodes.
    fn shaped(count: usize, depth: impl Fn(usize) -> usize) -> Tree {
        let mut tree = Tree::new(64);
        for index in 0..count {
            tree.add(depth(index), 1 + index as u32 % 3, index as u32 + 1);
        }
        tree
    }

    /// Flat, deep, two nodes a level, and mixed; planned by each planner, and with a page a node.
    #[test]
    fn large_trees_stay_readable() {
        for count in [100, 250, MAX_NODES] {
            let trees = [
                shaped(count, |index| index.min(1)),
                shaped(count, |index| index),
                shaped(count, |index| index.div_ceil(2)),
                shaped(count, |index| match index {
                    0 => 0,
                    _ => [1, 2, 3, 3, 3, 3, 3, 2, 3, 4][(index - 1) % 10],
                }),
                random_tree(7, count),
            ];
            for tree in trees {
                let table = table::write(&tree);
                let mut plans = vec![vec![1; count]];
                for planner in balduqen::Planner::ALL {
                    let planned = balduqen::plan(planner, &table);
                    plans.extend(planned.map(|plan| plan.marks));
                }
                for marks in plans {
                    let picture = draw(&tree, &Plan::new(&tree, marks).unwrap());
                    assert_eq!(nodes_told(&picture), count);
                    let (width, height) = size(&picture);
                    assert!(width <= 8000 && height <= 6000, "{width} x {height}");
                }
            }
        }
    }

    /// Above some hundred nodes leaves fold, and not below.
    #[test]
    fn leaves_fold_in_large_trees_only() {
        for (count, folds) in [(FEW, 0), (FEW + 1, 1)] {
            let tree = shaped(count, |index| index.min(1));
            let mut marks = vec![0; count];
            marks[0] = 1;
            let picture = draw(&tree, &Plan::new(&tree, marks).unwrap());
            let fold = format!("{} leaves", count - 1);
            assert_eq!(picture.matches(&fold).count(), 2 * folds);
            assert_eq!(nodes_told(&picture), count);
        }
    }

    #[test]
    fn one_page() {
        let tree = case_e();
        let plan = Plan::new(&tree, vec![1, 1, 2, 1, 2, 2]).unwrap();
        let pictures = [1, 2, 3].map(|page| draw_page(&tree, &plan, page));
        let headings = [
            "the page that it is cut from",
            "the page",
            "the pages cut from it",
        ];
        let has = |picture: &str| headings.map(|heading| picture.contains(&format!(">{heading}<")));
        assert_eq!(has(&pictures[0]), [false, true, true]);
        assert_eq!(has(&pictures[1]), [true, true, true]);
        assert_eq!(has(&pictures[2]), [true, true, false]);
        for (picture, page) in pictures.iter().zip(1..) {
            let heading = format!(">page {page} of 6 nodes, 3 pages, root page 5, limit 5<");
            assert_eq!(picture.matches(&heading).count(), 2);
        }
        // Page 1 and its page 2; page 2, the way down to it, and its page 3; page 3 and the way down.
        let told = pictures.map(|picture| nodes_told(&picture));
        assert_eq!(told, [1 + 3, 3 + 1 + 2, 2 + 1]);
    }

    /// Best's plan, with many leaves a page, and single's, with a page a leaf.
    #[test]
    fn one_page_of_a_large_tree() {
        let tree = shaped(MAX_NODES, |index| index.min(1));
        for planner in [balduqen::Planner::Best, balduqen::Planner::Single] {
            let plan = balduqen::plan(planner, &table::write(&tree)).unwrap();
            let plan = Plan::new(&tree, plan.marks).unwrap();
            for page in [1, 2, plan.pages.len()] {
                let picture = draw_page(&tree, &plan, page);
                let (first, last) = (plan.page(page).first, plan.page(page).last);
                assert!(nodes_told(&picture) > last - first);
            }
        }
    }
}
