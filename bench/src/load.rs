//! The trees to plan: the same ones in each run.

/// The nodes of most trees here, and the most that a tree has.
pub const NODES: usize = 1024;
pub const MOST_NODES: usize = 2048;
const LIMITS: [usize; 3] = [64, 256, 1024];

/// The numbers of nodes that the quick planners are timed with.
pub const SIZES: [usize; 4] = [256, 512, NODES, MOST_NODES];

/// Those that the growth of best and level is told by, each twice the one before.
pub const DOUBLES: [usize; 3] = [512, NODES, MOST_NODES];

#[derive(Clone, Copy)]
pub enum Shape {
    Flat,
    /// Three levels below the root.
    Bushy,
    /// Long branches.
    Deep,
    Random,
}

const SHAPES: [Shape; 4] = [Shape::Flat, Shape::Bushy, Shape::Deep, Shape::Random];

impl Shape {
    pub fn name(self) -> &'static str {
        match self {
            Shape::Flat => "flat",
            Shape::Bushy => "bushy",
            Shape::Deep => "deep",
            Shape::Random => "random",
        }
    }

    /// The depth of the node after one of this depth, where node 1 has depth 0.
    fn next_depth(self, depth: usize, draws: &mut Draws) -> usize {
        match self {
            Shape::Flat => 1,
            Shape::Bushy => draws.up_to(3.min(depth + 1)),
            Shape::Deep if draws.up_to(8) > 1 => depth + 1,
            Shape::Deep | Shape::Random => draws.up_to(depth + 1),
        }
    }
}

/// A tree's table, and what it was made from.
pub struct Load {
    pub shape: Shape,
    pub nodes: usize,
    pub limit: usize,
    /// Weights are from the one up to the other.
    lightest: usize,
    pub heaviest: usize,
    pub table: Vec<u8>,
}

impl Load {
    fn new(shape: Shape, nodes: usize, limit: usize, [lightest, heaviest]: [usize; 2]) -> Load {
        Load {
            shape,
            nodes,
            limit,
            lightest,
            heaviest,
            table: table(shape, nodes, limit, [lightest, heaviest]),
        }
    }

    pub fn weights(&self) -> String {
        format!("{}-{}", self.lightest, self.heaviest)
    }

    pub fn name(&self) -> String {
        let (shape, weights) = (self.shape.name(), self.weights());
        format!("{shape}, weights {weights}, K {}", self.limit)
    }

    /// The same form of tree, weights and limit in these sizes.
    pub fn in_sizes<const S: usize>(&self, sizes: [usize; S]) -> [Load; S] {
        let weights = [self.lightest, self.heaviest];
        sizes.map(|nodes| Load::new(self.shape, nodes, self.limit, weights))
    }
}

/// Each shape and limit, with light weights and with weights up to a quarter of the limit.
pub fn loads(nodes: usize) -> Vec<Load> {
    let mut list = vec![];
    for shape in SHAPES {
        for limit in LIMITS {
            for heaviest in [3, limit / 4] {
                list.push(Load::new(shape, nodes, limit, [1, heaviest]));
            }
        }
    }
    list
}

/// Each shape with nothing but notes of weight 0, and with weights from 0 up, where runs of more
/// nodes than the limit come up. They are compared and not timed.
pub fn loads_with_notes() -> Vec<Load> {
    let mut list = vec![];
    for shape in SHAPES {
        for (limit, heaviest) in [(1, 0), (4, 1), (64, 3), (64, 16), (1024, 3)] {
            for nodes in [NODES, MOST_NODES] {
                list.push(Load::new(shape, nodes, limit, [0, heaviest]));
            }
        }
    }
    list
}

/// Each shape in all sizes, with the lowest limit and weights up to a quarter of it.
pub fn loads_by_size() -> [[Load; SIZES.len()]; SHAPES.len()] {
    let limit = LIMITS[0];
    SHAPES.map(|shape| SIZES.map(|nodes| Load::new(shape, nodes, limit, [1, limit / 4])))
}

/// A linear congruential generator; a draw is the upper half of its state.
struct Draws(u32);

impl Draws {
    /// A number from 1 to `most`.
    fn up_to(&mut self, most: usize) -> usize {
        self.0 = self.0.wrapping_mul(1_664_525).wrapping_add(1_013_904_223);
        1 + (self.0 >> 16) as usize % most
    }
}

fn table(shape: Shape, nodes: usize, limit: usize, [lightest, heaviest]: [usize; 2]) -> Vec<u8> {
    let mut draws = Draws(1);
    let mut words = vec![nodes, limit];
    // The newest node of each depth, the newest of all at the end.
    let mut branch: Vec<usize> = vec![];
    for node in 1..=nodes {
        let depth = match branch.len() {
            0 => 0,
            length => shape.next_depth(length - 1, &mut draws),
        };
        match branch.get(depth) {
            Some(&before) => words[link(before) + 1] = node,
            None if depth > 0 => words[link(branch[depth - 1])] = node,
            None => {}
        }
        branch.truncate(depth);
        branch.push(node);
        let weight = lightest + draws.up_to(heaviest - lightest + 1) - 1;
        words.extend([weight, node, 0, 0]);
    }
    words
        .iter()
        .flat_map(|&word| (word as u16).to_be_bytes())
        .collect()
}

/// The index of a node's first child among the words; its next sibling follows.
fn link(node: usize) -> usize {
    2 + 4 * (node - 1) + 2
}
