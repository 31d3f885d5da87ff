//! Networks to work on, and what to do to them: the same for every side.

use crate::random::Random;

/// How many nodes and edges a network has.
#[derive(Clone, Copy, Debug, PartialEq, Eq)]
pub struct Size {
    pub nodes: usize,
    pub edges: usize,
}

impl Size {
    /// A sixteenth and a quarter of the limits, and the limits.
    pub const ALL: [Size; 3] = [Size::of(1_024), Size::of(4_096), Size::of(16_384)];

    /// Four edges a node, as the limits have it.
    pub const fn of(nodes: usize) -> Size {
        let edges = 4 * nodes;
        Size { nodes, edges }
    }

    /// The register numbers that a directory has cells for: two for each edge.
    pub const fn cells(self) -> usize {
        2 * self.edges
    }
}

/// How edges are spread over the nodes.
#[derive(Clone, Copy, Debug, PartialEq, Eq)]
pub enum Shape {
    /// Both ends are any node.
    Even,
    /// One end of every other edge is a hub.
    Hubs,
}

/// The hubs are the first nodes.
pub const HUBS: u32 = 8;

/// The nodes that are taken out, at every size.
pub const NODES_OUT: usize = 64;

pub struct Input {
    pub weights: Vec<i32>,
    /// Source, target, weight.
    pub edges: Vec<[u32; 3]>,
    /// Pairs to look for: every other one has an edge.
    pub pairs: Vec<[u32; 2]>,
    /// Edges to take out one after another until none is left, by their numbers then.
    pub all_out: Vec<u32>,
    /// Edges at a hub, an eighth of all, in the same way.
    pub hub_out: Vec<u32>,
    /// Nodes to take out, by their numbers then: where there are hubs, these first.
    pub nodes_out: Vec<u32>,
    /// Register numbers to look for: about every other one is an edge's, where edges bear different ones.
    pub asked: Vec<u32>,
    /// The register numbers of all edges, in any order.
    pub numbers_out: Vec<u32>,
}

impl Input {
    pub fn new(size: Size, shape: Shape, seed: u64) -> Input {
        let random = &mut Random(seed);
        let edges = edges(size, shape, random);
        Input {
            weights: (0..size.nodes).map(|_| weight(random)).collect(),
            pairs: pairs(size, &edges, random),
            all_out: (1..=size.edges).rev().map(|m| random.below(m)).collect(),
            hub_out: hub_out(&edges, random),
            nodes_out: nodes_out(size, shape, random),
            asked: Vec::new(),
            numbers_out: Vec::new(),
            edges,
        }
    }

    /// The same for a directory: every edge bears a number of its own.
    pub fn numbered(size: Size, shape: Shape, seed: u64) -> Input {
        let mut input = Input::new(size, shape, seed);
        let random = &mut Random(!seed);
        let mut numbers = shuffled(size.cells(), random);
        input.asked = (0..size.edges).map(|_| random.pick(&numbers)).collect();
        numbers.truncate(size.edges);
        let order = shuffled(size.edges, random);
        input.numbers_out = order.iter().map(|&e| numbers[e as usize]).collect();
        for (edge, number) in input.edges.iter_mut().zip(numbers) {
            edge[2] = number;
        }
        input
    }
}

/// The numbers below a limit, in any order.
fn shuffled(limit: usize, random: &mut Random) -> Vec<u32> {
    let mut numbers: Vec<u32> = (0..limit as u32).collect();
    for k in (1..limit).rev() {
        numbers.swap(k, random.below(k + 1) as usize);
    }
    numbers
}

fn weight(random: &mut Random) -> i32 {
    random.below(2_000) as i32 - 1_000
}

fn edges(size: Size, shape: Shape, random: &mut Random) -> Vec<[u32; 3]> {
    let mut edge = || {
        let mut ends = [random.below(size.nodes), random.below(size.nodes)];
        if shape == Shape::Hubs && random.coin() {
            ends[random.below(2) as usize] = random.below(HUBS as usize);
        }
        [ends[0], ends[1], random.below(1_000_000)]
    };
    (0..size.edges).map(|_| edge()).collect()
}

fn pairs(size: Size, edges: &[[u32; 3]], random: &mut Random) -> Vec<[u32; 2]> {
    let mut pair = || {
        let [a, b, _] = random.pick(edges);
        match random.below(4) {
            0 => [a, b],
            1 => [b, a],
            _ => [random.below(size.nodes), random.below(size.nodes)],
        }
    };
    (0..size.edges).map(|_| pair()).collect()
}

/// The last row takes the place of one that is taken out, here as in the network.
fn hub_out(edges: &[[u32; 3]], random: &mut Random) -> Vec<u32> {
    let mut at_hub: Vec<bool> = edges.iter().map(|e| e[0].min(e[1]) < HUBS).collect();
    let count = at_hub.iter().filter(|&&is| is).count();
    let mut numbers = Vec::new();
    while numbers.len() < count.min(edges.len() / 8) {
        let e = random.below(at_hub.len());
        if at_hub[e as usize] {
            at_hub.swap_remove(e as usize);
            numbers.push(e);
        }
    }
    numbers
}

fn nodes_out(size: Size, shape: Shape, random: &mut Random) -> Vec<u32> {
    let hubs = if shape == Shape::Hubs { HUBS } else { 0 };
    let left = (1..=size.nodes).rev().zip(0..NODES_OUT as u32);
    left.map(|(n, k)| if k < hubs { k } else { random.below(n) })
        .collect()
}
