//! Small networks, and what may be wrong with their tables.

use crate::common::{Graph, Random, tables_of};
use oracle::graph;
use waterways::{END, Tables};

/// A sound network of a few rows.
pub fn sound(random: &mut Random) -> Tables {
    let mut graph = Graph::default();
    let nodes = random.below(4);
    for _ in 0..nodes {
        graph.add_node(random.weight());
    }
    for _ in 0..(if nodes == 0 { 0 } else { random.below(7) }) {
        let (a, b) = (random.below(nodes), random.below(nodes));
        graph.add_edge(graph::NodeIndex(a), graph::NodeIndex(b), random.below(100));
    }
    tables_of(
        &graph,
        nodes as usize + random.below(2) as usize,
        graph.edge_count() + random.below(2) as usize,
    )
}

/// A value for a damaged cell: a row, one just past the rows, or no row.
pub fn value(random: &mut Random, count: u32) -> u32 {
    match random.below(count + 3) {
        x if x < count + 2 => x,
        _ => END,
    }
}

/// Cells of heads, links and ends changed, now and then none.
pub fn damage(random: &mut Random, t: &mut Tables) {
    for _ in 0..random.below(4) {
        let (table, count) = match random.below(3) {
            0 => (&mut t.heads, t.m),
            1 => (&mut t.links, t.m),
            _ => (&mut t.ends, t.n),
        };
        if !table.is_empty() {
            let at = random.below(table.len() as u32) as usize;
            table[at] = value(random, count);
        }
    }
}

/// A table of another length, or a count above the rows.
pub fn misfit(random: &mut Random, t: &mut Tables) {
    match random.below(7) {
        0 => t.weights.push(0),
        1 => t.heads.push(END),
        2 => t.registers.push(0),
        3 => t.links.push(END),
        4 => t.ends.extend([END, END]),
        5 => t.n = t.weights.len() as u32 + 1,
        _ => t.m = u32::MAX - random.below(2),
    }
}
