//! Pictures read back from their SVG, for tests: where texts and frames are, and that none runs
//! into another.

use crate::letters::Letters;

/// Where something is, in units of the picture.
#[derive(Clone, Copy, Debug)]
pub struct Extent {
    left: i32,
    right: i32,
    top: i32,
    low: i32,
}

impl Extent {
    fn is_within(&self, other: &Extent) -> bool {
        self.left >= other.left
            && self.right <= other.right
            && self.top >= other.top
            && self.low <= other.low
    }

    fn meets(&self, other: &Extent) -> bool {
        self.left < other.right
            && other.left < self.right
            && self.top < other.low
            && other.top < self.low
    }
}

#[derive(Debug)]
pub struct Text {
    pub content: String,
    extent: Extent,
    /// On a tag, which is the frame just before it.
    is_on_tag: bool,
}

/// A picture's size, its texts, and the frames that texts stand in.
pub struct Drawn {
    all: Extent,
    texts: Vec<Text>,
    frames: Vec<Extent>,
    tags: Vec<Extent>,
}

fn attribute<'a>(line: &'a str, name: &str) -> Option<&'a str> {
    let (_, rest) = line.split_once(&format!(" {name}=\""))?;
    rest.split('"').next()
}

fn number(line: &str, name: &str) -> Option<i32> {
    attribute(line, name)?.parse().ok()
}

/// Letters reach three quarters of their size up and a quarter down.
fn read_text(line: &str) -> Text {
    let content = line.split(['>', '<']).nth(2).unwrap().to_string();
    let size = number(line, "font-size").unwrap_or(13);
    let letters = match attribute(line, "font-weight") {
        Some(_) => Letters::bold(size),
        None => Letters::plain(size),
    };
    let width = letters.width(&content);
    let (x, y) = (number(line, "x").unwrap(), number(line, "y").unwrap());
    let left = match attribute(line, "text-anchor") {
        Some("end") => x - width,
        Some("middle") => x - (width + 1) / 2,
        _ => x,
    };
    let extent = Extent {
        left,
        right: left + width,
        top: y - (3 * size + 3) / 4,
        low: y + (size + 3) / 4,
    };
    Text {
        content,
        extent,
        is_on_tag: attribute(line, "fill") == Some("#ffffff"),
    }
}

fn read_rect(line: &str) -> Extent {
    let sides = ["x", "y", "width", "height"].map(|name| number(line, name).unwrap());
    let [left, top, width, height] = sides;
    Extent {
        left,
        right: left + width,
        top,
        low: top + height,
    }
}

impl Drawn {
    pub fn read(picture: &str) -> Drawn {
        let mut rects = picture.lines().filter(|line| line.starts_with("<rect"));
        let mut drawn = Drawn {
            all: read_rect(rects.next().unwrap()),
            texts: vec![],
            frames: vec![],
            tags: vec![],
        };
        for line in picture.lines() {
            if line.starts_with("<text") {
                drawn.texts.push(read_text(line));
            }
            // A row, a box or a card, and a tag on one.
            match number(line, "rx") {
                Some(4 | 6) => drawn.frames.push(read_rect(line)),
                Some(7 | 8) => drawn.tags.push(read_rect(line)),
                _ => {}
            }
        }
        drawn
    }

    pub fn size(&self) -> (i32, i32) {
        (self.all.right, self.all.low)
    }

    pub fn count(&self, content: &str) -> usize {
        let texts = self.texts.iter();
        texts.filter(|text| text.content == content).count()
    }

    /// That each text is in the picture, a tag's number on the tag, and any other in a frame or out
    /// of it, and that no two texts meet.
    pub fn check(&self) {
        for text in &self.texts {
            assert!(
                text.extent.is_within(&self.all),
                "{text:?} out of the picture"
            );
            if text.is_on_tag {
                let is_on = |tag: &Extent| text.extent.is_within(tag);
                assert!(self.tags.iter().any(is_on), "{text:?} runs over its tag");
                continue;
            }
            for frame in &self.frames {
                let is_in = text.extent.is_within(frame);
                assert!(
                    is_in || !text.extent.meets(frame),
                    "{text:?} crosses {frame:?}"
                );
            }
        }
        let mut texts: Vec<&Text> = self.texts.iter().collect();
        texts.sort_by_key(|text| text.extent.top);
        for (index, text) in texts.iter().enumerate() {
            let later = texts[index + 1..].iter();
            let later = later.take_while(|other| other.extent.top < text.extent.low);
            for other in later {
                assert!(
                    !text.extent.meets(&other.extent),
                    "{text:?} meets {other:?}"
                );
            }
        }
    }
}

mod tests {
    use super::*;
    use crate::element;
    use crate::plan::Plan;
    use crate::svg::{draw, draw_page};
    use crate::table;
    use crate::text;
    use crate::tree::Tree;
    use balduqen::{Planner, MAX_NODES};

    const COUNTS: [usize; 4] = [30, 100, 300, MAX_NODES];

    /// The depth of a node of this index.
    type Shape = fn(usize) -> usize;

    const FLAT: Shape = |index| index.min(1);
    /// Two nodes a level.
    const DEEP: Shape = |index| index.div_ceil(2);
    const CHAIN: Shape = |index| index;
    const MIXED: Shape = |index| match index {
        0 => 0,
        _ => [1, 2, 3, 3, 3, 3, 3, 2, 3, 4][(index - 1) % 10],
    };

    /// Labels have five digits, up to 65,535, and weights go up to a most.
    fn tree(shape: Shape, count: usize, most: usize) -> Tree {
        let mut tree = Tree::new(1024);
        for index in 0..count {
            let weight = 1 + index * 397 % most;
            let label = 65535 - (count - 1 - index) * (55535 / count);
            tree.add(shape(index), weight as u32, label as u32);
        }
        tree
    }

    fn planned(tree: &Tree, planner: Planner) -> Plan {
        let plan = balduqen::plan(planner, &table::write(tree)).unwrap();
        Plan::new(tree, plan.marks).unwrap()
    }

    /// A page a node.
    fn cut_up(tree: &Tree) -> Plan {
        Plan::new(tree, vec![1; tree.count()]).unwrap()
    }

    /// All on page 1.
    fn kept(tree: &Tree) -> Plan {
        let mut marks = vec![0; tree.count()];
        marks[0] = 1;
        Plan::new(tree, marks).unwrap()
    }

    /// By planners, and by hand as no planner would.
    fn plans(tree: &Tree) -> Vec<Plan> {
        let planners = [Planner::Best, Planner::Single, Planner::DepthFirst];
        let plans = planners.map(|planner| planned(tree, planner));
        let by_hand = [cut_up(tree), kept(tree)];
        plans.into_iter().chain(by_hand).collect()
    }

    /// Checks pictures of trees of this shape. With light nodes, pages are large.
    fn check(shape: Shape) {
        for count in COUNTS {
            for most in [40, 1024] {
                let mut tree = tree(shape, count, most);
                for plan in plans(&tree) {
                    check_pictures(&tree, &plan);
                }
                // Now most pages are over the limit.
                tree.limit = 9;
                check_pictures(&tree, &cut_up(&tree));
            }
        }
    }

    /// Checks the whole picture and those of some pages, which are to be seen at once.
    fn check_pictures(tree: &Tree, plan: &Plan) {
        Drawn::read(&draw(tree, plan)).check();
        let last = plan.pages.len();
        for page in [1, 2.min(last), last.div_ceil(2), last] {
            let drawn = Drawn::read(&draw_page(tree, plan, page));
            drawn.check();
            let (width, height) = drawn.size();
            assert!(width <= 2400 && height <= 1600, "{width} x {height}");
        }
    }

    /// The sample of 300 nodes, by each planner.
    #[test]
    fn the_large_sample_does_not_run_into_itself() {
        let tree = text::read(include_str!("../samples/large.txt"))
            .unwrap()
            .tree;
        assert_eq!(tree.count(), 300);
        for planner in Planner::ALL {
            check_pictures(&tree, &planned(&tree, planner));
        }
    }

    #[test]
    fn no_flat_tree_runs_into_itself() {
        check(FLAT);
    }

    #[test]
    fn no_deep_tree_runs_into_itself() {
        check(DEEP);
    }

    #[test]
    fn no_chain_runs_into_itself() {
        check(CHAIN);
    }

    #[test]
    fn no_mixed_tree_runs_into_itself() {
        check(MIXED);
    }

    /// What the checker is for: weight 13 with labels 10196 to 10217, as it was once drawn.
    #[test]
    #[should_panic(expected = "meets")]
    fn texts_that_meet_are_found() {
        let end = "font-size=\"11\" text-anchor=\"end\"";
        let weight = element::text((204, 12), end, "13");
        let labels = element::text((288, 12), end, "10196 .. 10217");
        let all = element::rect((0, 0), (296, 16), 0, "");
        Drawn::read(&(all + &weight + &labels)).check();
    }

    /// Chains on as many pages as there can be, all far over the limit, and with a long row in each
    /// column.
    #[test]
    fn the_largest_pictures_are_bounded() {
        let mut tree = Tree::new(1000);
        (0..MAX_NODES).for_each(|depth| tree.add(depth, 65535, 65535));
        let with_folds = (0..MAX_NODES).map(|index| u8::from(index % 60 < 57));
        for marks in [vec![1; MAX_NODES], with_folds.collect()] {
            let drawn = Drawn::read(&draw(&tree, &Plan::new(&tree, marks).unwrap()));
            drawn.check();
            let (width, height) = drawn.size();
            assert!(width <= 8000 && height <= 6000, "{width} x {height}");
        }
    }

    /// A card a page but for the last, which is a row of the one before it.
    #[test]
    fn a_chain_on_many_pages_is_a_card_a_page() {
        for count in COUNTS {
            let tree = tree(CHAIN, count, 1024);
            let drawn = Drawn::read(&draw(&tree, &cut_up(&tree)));
            // With the key's card.
            assert_eq!(drawn.frames.len(), 1 + count - 1);
            assert_eq!(drawn.count("1 node"), count - 2);
            assert_eq!(drawn.count("all of a page, with no card"), 1);
        }
    }

    /// The level of each row where indents begin anew stands in a frame, and the key tells of it.
    #[test]
    fn indents_that_begin_anew_are_marked() {
        let marks = |tree: &Tree, plan: &Plan| {
            let picture = draw(tree, plan);
            let is_told = picture.contains("level, where indents begin anew or go back");
            (picture.matches("rx=\"2\"").count() > 1, is_told)
        };
        let deep = tree(DEEP, 300, 40);
        assert_eq!(marks(&deep, &kept(&deep)), (true, true));
        assert_eq!(marks(&deep, &cut_up(&deep)), (false, false));
        // Seven levels and then pages that are cut: their rows are marked.
        let broad = tree(|index| index.min(7), 100, 40);
        let cut = |index: usize| u8::from(index == 0 || index >= 7);
        let plan = Plan::new(&broad, (0..100).map(cut).collect()).unwrap();
        assert_eq!(marks(&broad, &plan), (true, true));
    }

    /// The first pages of many, and how many more there are; the first rows, and how many more.
    #[test]
    fn a_page_of_a_flat_tree_is_bounded() {
        let tree = tree(FLAT, MAX_NODES, 1024);
        let drawn = Drawn::read(&draw_page(&tree, &cut_up(&tree), 1));
        let pages = "the first 30 pages cut from it, and 2017 more pages";
        assert_eq!(drawn.count(pages), 1);
        assert_eq!(drawn.count("and 1848 more pages"), 1);
        let (width, height) = drawn.size();
        assert!(width <= 2400 && height <= 1600, "{width} x {height}");
    }
}
