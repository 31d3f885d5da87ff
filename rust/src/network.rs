//! A network that owns its tables.

use crate::calls;
use crate::{EDGE_ROWS, END, EdgeDirection, EdgeIndex, NODE_ROWS, NodeIndex, Refusal};

/// The five tables and the two counts. A row that is not in use is vacant: weight 0, and [`END`] in
/// every link and end.
#[derive(Clone, Debug, PartialEq, Eq)]
pub struct Tables {
    /// One cell a node row: its weight.
    pub weights: Vec<i32>,
    /// Two cells a node row: the first edge of its outgoing and of its incoming list.
    pub heads: Vec<u32>,
    /// One cell an edge row: its weight, a register number.
    pub registers: Vec<u32>,
    /// Two cells an edge row: the next edge of its source's outgoing and of its target's incoming list.
    pub links: Vec<u32>,
    /// Two cells an edge row: its source and its target.
    pub ends: Vec<u32>,
    /// How many node rows are in use.
    pub n: u32,
    /// How many edge rows are in use.
    pub m: u32,
}

/// An edge that was taken out.
#[derive(Clone, Copy, Debug, PartialEq, Eq)]
pub struct EdgeRemoved {
    pub weight: u32,
    /// The old number of the row that took its place, if one did.
    pub moved: Option<EdgeIndex>,
    /// The edge rows read.
    pub rows: u32,
}

/// A node that was taken out.
#[derive(Clone, Copy, Debug, PartialEq, Eq)]
pub struct NodeRemoved {
    pub weight: i32,
    /// The edge rows read, those of the check aside.
    pub rows: u64,
}

/// Where a network is not sound.
#[derive(Clone, Copy, Debug, PartialEq, Eq)]
pub enum Fault {
    /// The first fault. The node is the node count where some edge is in no list of that direction; it is
    /// one more, and the direction incoming, where the directory is not that of the rows.
    At(EdgeDirection, NodeIndex),
    /// The tables do not fit.
    Tables,
}

/// Where a walk around a node stands: the node, then the next edge of its outgoing and of its incoming list.
/// It is lent to each step, and takes no hold of the network. Any three numbers will do.
#[derive(Clone, Copy, Debug, PartialEq, Eq)]
pub struct Walker(pub [u32; 3]);

/// A network of waterways, with the names of `UnGraph`. It may be made with a directory
/// ([`Network::with_directory`]): then its register numbers are unique, edges are found by them
/// ([`Network::find_number`]), and every call keeps the directory in step.
#[derive(Clone, Debug, PartialEq, Eq)]
pub struct Network {
    tables: Tables,
    /// For each register number the row that bears it, or [`END`].
    directory: Option<Vec<u32>>,
}

/// A call that changes no table.
macro_rules! ask {
    ($network:expr, $call:ident($($argument:expr),*)) => {{
        let t = &$network.tables;
        // SAFETY: each table is lent with its own length, and outputs are no part of a table. Lengths and
        // counts need not agree: the call tests them before it reads.
        Refusal::of(unsafe {
            calls::$call(
                t.weights.as_ptr(),
                t.weights.len(),
                t.heads.as_ptr(),
                t.heads.len(),
                t.registers.as_ptr(),
                t.registers.len(),
                t.links.as_ptr(),
                t.links.len(),
                t.ends.as_ptr(),
                t.ends.len(),
                t.n,
                t.m,
                $($argument),*
            )
        })
    }};
}

/// A call that changes some.
macro_rules! change {
    ($t:ident, $call:ident($($argument:expr),*)) => {
        // SAFETY: as above; and `$t` is held by `&mut`, so nobody else reads or changes its tables meanwhile.
        Refusal::of(unsafe {
            calls::$call(
                $t.weights.as_mut_ptr(),
                $t.weights.len(),
                $t.heads.as_mut_ptr(),
                $t.heads.len(),
                $t.registers.as_mut_ptr(),
                $t.registers.len(),
                $t.links.as_mut_ptr(),
                $t.links.len(),
                $t.ends.as_mut_ptr(),
                $t.ends.len(),
                $($argument),*
            )
        })
    };
}

/// One of two calls that change no table: the second where there is a directory, which it is lent behind the
/// counts.
macro_rules! ask_either {
    ($network:expr, $plain:ident | $filed:ident($($argument:expr),*)) => {
        match &$network.directory {
            None => ask!($network, $plain($($argument),*)),
            Some(d) => ask!($network, $filed(d.as_ptr(), d.len() $(, $argument)*)),
        }
    };
}

/// One of two calls that change some, in the same way.
macro_rules! change_either {
    ($t:ident, $directory:ident, $plain:ident | $filed:ident($n:expr, $m:expr $(, $argument:expr)*)) => {
        match $directory {
            None => change!($t, $plain($n, $m $(, $argument)*)),
            Some(d) => change!($t, $filed($n, $m, d.as_mut_ptr(), d.len() $(, $argument)*)),
        }
    };
}

impl Network {
    /// An empty network with room for so many nodes and edges.
    pub fn with_rows(nodes: usize, edges: usize) -> Result<Network, Refusal> {
        if nodes > NODE_ROWS || edges > EDGE_ROWS {
            return Err(Refusal::Tables);
        }
        Ok(Network::from_tables(Tables {
            weights: vec![0; nodes],
            heads: vec![END; 2 * nodes],
            registers: vec![0; edges],
            links: vec![END; 2 * edges],
            ends: vec![END; 2 * edges],
            n: 0,
            m: 0,
        }))
    }

    /// The same with a directory of so many cells: it holds register numbers 0 to `cells - 1`.
    pub fn with_directory(nodes: usize, edges: usize, cells: usize) -> Result<Network, Refusal> {
        let network = Network::with_rows(nodes, edges)?;
        Ok(network.beside(vec![END; cells]))
    }

    /// A network on tables that may hold anything. What a call cannot serve on them it refuses.
    pub fn from_tables(tables: Tables) -> Network {
        Network {
            tables,
            directory: None,
        }
    }

    /// The network with this directory, which may hold anything, too.
    pub fn beside(self, directory: Vec<u32>) -> Network {
        Network {
            directory: Some(directory),
            ..self
        }
    }

    /// The tables as they are.
    pub fn tables(&self) -> &Tables {
        &self.tables
    }

    /// The tables, given back; a directory is not.
    pub fn into_tables(self) -> Tables {
        self.tables
    }

    /// The tables and the directory, if it has one, given back.
    pub fn into_parts(self) -> (Tables, Option<Vec<u32>>) {
        (self.tables, self.directory)
    }

    /// The cells of the directory: for each register number the row that bears it, or [`END`]. None where the
    /// network has no directory.
    pub fn directory(&self) -> Option<&[u32]> {
        self.directory.as_deref()
    }

    /// How many nodes there are.
    pub fn node_count(&self) -> usize {
        self.tables.n as usize
    }

    /// How many edges there are.
    pub fn edge_count(&self) -> usize {
        self.tables.m as usize
    }

    /// One more node.
    pub fn add_node(&mut self, weight: i32) -> Result<NodeIndex, Refusal> {
        let (t, mut node) = (&mut self.tables, 0);
        change!(t, net_add_node(&mut t.n, t.m, weight, &mut node))?;
        Ok(NodeIndex(node))
    }

    /// The weight of a node.
    pub fn node_weight(&self, a: NodeIndex) -> Result<i32, Refusal> {
        let mut weight = 0;
        ask!(self, net_node_weight(a.0, &mut weight))?;
        Ok(weight)
    }

    /// Sets the weight of a node.
    pub fn set_node_weight(&mut self, a: NodeIndex, weight: i32) -> Result<(), Refusal> {
        let t = &mut self.tables;
        change!(t, net_set_node_weight(t.n, t.m, a.0, weight))
    }

    /// One more edge, from `a` to `b`. With a directory refused [`Refusal::Beyond`] where it has no cell for the
    /// weight, and [`Refusal::Taken`] where the weight's entry names a row.
    pub fn add_edge(
        &mut self,
        a: NodeIndex,
        b: NodeIndex,
        weight: u32,
    ) -> Result<EdgeIndex, Refusal> {
        let (t, directory, mut edge) = (&mut self.tables, &mut self.directory, 0);
        change_either!(
            t,
            directory,
            net_add_edge | net_dir_add_edge(t.n, &mut t.m, a.0, b.0, weight, &mut edge)
        )?;
        Ok(EdgeIndex(edge))
    }

    /// Sets the weight of the edge between `a` and `b`, or adds one. With a directory refused as
    /// [`Network::set_edge_weight`] or [`Network::add_edge`].
    pub fn update_edge(
        &mut self,
        a: NodeIndex,
        b: NodeIndex,
        weight: u32,
    ) -> Result<EdgeIndex, Refusal> {
        let (t, directory, mut edge) = (&mut self.tables, &mut self.directory, 0);
        change_either!(
            t,
            directory,
            net_update_edge | net_dir_update_edge(t.n, &mut t.m, a.0, b.0, weight, &mut edge)
        )?;
        Ok(EdgeIndex(edge))
    }

    /// The weight of an edge.
    pub fn edge_weight(&self, e: EdgeIndex) -> Result<u32, Refusal> {
        let mut weight = 0;
        ask!(self, net_edge_weight(e.0, &mut weight))?;
        Ok(weight)
    }

    /// Sets the weight of an edge. With a directory refused [`Refusal::Broken`] where the edge's entry does not
    /// name it, [`Refusal::Beyond`], and [`Refusal::Taken`] where the weight's entry names another row.
    pub fn set_edge_weight(&mut self, e: EdgeIndex, weight: u32) -> Result<(), Refusal> {
        let (t, directory) = (&mut self.tables, &mut self.directory);
        change_either!(
            t,
            directory,
            net_set_edge_weight | net_dir_set_edge_weight(t.n, t.m, e.0, weight)
        )
    }

    /// The edge that bears a register number, by the directory; [`Refusal::Nothing`] where none does. A network
    /// without a directory is taken as one with no cell: [`Refusal::Beyond`].
    pub fn find_number(&self, number: u32) -> Result<EdgeIndex, Refusal> {
        let (d, mut edge) = (self.directory().unwrap_or(&[]), 0);
        ask!(
            self,
            net_dir_find_number(d.as_ptr(), d.len(), number, &mut edge)
        )?;
        Ok(EdgeIndex(edge))
    }

    /// Source and target of an edge.
    pub fn edge_endpoints(&self, e: EdgeIndex) -> Result<(NodeIndex, NodeIndex), Refusal> {
        let (mut source, mut target) = (0, 0);
        ask!(self, net_edge_endpoints(e.0, &mut source, &mut target))?;
        Ok((NodeIndex(source), NodeIndex(target)))
    }

    /// The first edge of a node's list; [`Refusal::Nothing`] where it is empty.
    pub fn first_edge(&self, a: NodeIndex, dir: EdgeDirection) -> Result<EdgeIndex, Refusal> {
        let mut edge = 0;
        ask!(self, net_first_edge(a.0, dir as u32, &mut edge))?;
        Ok(EdgeIndex(edge))
    }

    /// The edge after an edge; [`Refusal::Nothing`] where it is the last.
    pub fn next_edge(&self, e: EdgeIndex, dir: EdgeDirection) -> Result<EdgeIndex, Refusal> {
        let mut edge = 0;
        ask!(self, net_next_edge(e.0, dir as u32, &mut edge))?;
        Ok(EdgeIndex(edge))
    }

    /// The first edge of `a` whose far end is `b`; [`Refusal::Nothing`] where there is none.
    pub fn find_edge(&self, a: NodeIndex, b: NodeIndex) -> Result<EdgeIndex, Refusal> {
        let mut edge = 0;
        ask!(self, net_find_edge(a.0, b.0, &mut edge))?;
        Ok(EdgeIndex(edge))
    }

    /// Whether there is an edge between `a` and `b`. A missing node has none.
    pub fn contains_edge(&self, a: NodeIndex, b: NodeIndex) -> Result<bool, Refusal> {
        let mut found = 0;
        ask!(self, net_contains_edge(a.0, b.0, &mut found))?;
        Ok(found == 1)
    }

    /// The neighbours of a node: along its outgoing list, then along its incoming one without self-loops.
    pub fn neighbors(&self, a: NodeIndex) -> Result<Vec<NodeIndex>, Refusal> {
        let nodes = grown(|items| self.neighbors_into(a, items))?;
        Ok(nodes.into_iter().map(NodeIndex).collect())
    }

    /// The same into a table that may be too short; how many.
    pub fn neighbors_into(&self, a: NodeIndex, items: &mut [u32]) -> Result<usize, Refusal> {
        filled(items, |at, length, count| {
            ask!(self, net_neighbors(a.0, at, length, count))
        })
    }

    /// The weights of the edges of the neighbour walk.
    pub fn edge_weights(&self, a: NodeIndex) -> Result<Vec<u32>, Refusal> {
        grown(|items| self.edge_weights_into(a, items))
    }

    /// The same into a table that may be too short; how many.
    pub fn edge_weights_into(&self, a: NodeIndex, items: &mut [u32]) -> Result<usize, Refusal> {
        filled(items, |at, length, count| {
            ask!(self, net_edge_weights(a.0, at, length, count))
        })
    }

    /// The edges of the neighbour walk whose far end is `b`.
    pub fn edges_between(&self, a: NodeIndex, b: NodeIndex) -> Result<Vec<EdgeIndex>, Refusal> {
        edges_of(grown(|items| self.edges_between_into(a, b, items)))
    }

    /// The same into a table that may be too short; how many.
    pub fn edges_between_into(
        &self,
        a: NodeIndex,
        b: NodeIndex,
        items: &mut [u32],
    ) -> Result<usize, Refusal> {
        filled(items, |at, length, count| {
            ask!(self, net_edges_between(a.0, b.0, at, length, count))
        })
    }

    /// The edges of a node, incoming ones first; a self-loop comes twice.
    pub fn edges_mut(&self, a: NodeIndex) -> Result<Vec<EdgeIndex>, Refusal> {
        edges_of(grown(|items| self.edges_mut_into(a, items)))
    }

    /// The same into a table that may be too short; how many.
    pub fn edges_mut_into(&self, a: NodeIndex, items: &mut [u32]) -> Result<usize, Refusal> {
        filled(items, |at, length, count| {
            ask!(self, net_edges_mut(a.0, at, length, count))
        })
    }

    /// The edges whose weights `UnGraph` hands out to be changed: those of [`Network::edges_mut`].
    pub fn edge_weights_mut(&self, a: NodeIndex) -> Result<Vec<EdgeIndex>, Refusal> {
        edges_of(grown(|items| self.edge_weights_mut_into(a, items)))
    }

    /// The same into a table that may be too short; how many.
    pub fn edge_weights_mut_into(&self, a: NodeIndex, items: &mut [u32]) -> Result<usize, Refusal> {
        filled(items, |at, length, count| {
            ask!(self, net_edge_weights_mut(a.0, at, length, count))
        })
    }

    /// Number, source and target of each edge of the neighbour walk, the ends of incoming ones turned round.
    pub fn edges(&self, a: NodeIndex) -> Result<Vec<(EdgeIndex, NodeIndex, NodeIndex)>, Refusal> {
        // Three tables of one length: the first is the one that grows.
        let (mut sources, mut targets) = (Vec::new(), Vec::new());
        let numbers = grown(|numbers| {
            (sources, targets) = (vec![0; numbers.len()], vec![0; numbers.len()]);
            self.edges_into(a, numbers, &mut sources, &mut targets)
        })?;
        let ends = sources.into_iter().zip(targets);
        let edges = numbers.into_iter().zip(ends);
        Ok(edges
            .map(|(e, (a, b))| (EdgeIndex(e), NodeIndex(a), NodeIndex(b)))
            .collect())
    }

    /// The same into three tables that may be too short; how many.
    pub fn edges_into(
        &self,
        a: NodeIndex,
        numbers: &mut [u32],
        sources: &mut [u32],
        targets: &mut [u32],
    ) -> Result<usize, Refusal> {
        let (source, target) = (sources.as_mut_ptr(), targets.as_mut_ptr());
        let (sources, targets) = (sources.len(), targets.len());
        filled(numbers, |number, numbers, count| {
            ask!(
                self,
                net_edges(
                    a.0, number, numbers, source, sources, target, targets, count
                )
            )
        })
    }

    /// The weights of all edges, in row order.
    pub fn all_edge_weights(&self) -> Result<Vec<u32>, Refusal> {
        let mut items = vec![0; self.edge_count().min(self.tables.registers.len())];
        let mut count = 0;
        ask!(
            self,
            net_all_edge_weights(items.as_mut_ptr(), items.len(), &mut count)
        )?;
        Ok(items)
    }

    /// A walker at the heads of a node's two lists; [`Network::step`] moves it on.
    pub fn walker(&self, a: NodeIndex) -> Result<Walker, Refusal> {
        let mut walker = [0; 3];
        ask!(self, net_walker_new(a.0, &mut walker))?;
        Ok(Walker(walker))
    }

    /// The next neighbour; [`Refusal::Nothing`] where the walker is at its end.
    pub fn step(&self, walker: &mut Walker) -> Result<NodeIndex, Refusal> {
        let mut neighbor = 0;
        ask!(self, net_walker_next(&mut walker.0, &mut neighbor))?;
        Ok(NodeIndex(neighbor))
    }

    /// The sum of the weights of a node's neighbours.
    pub fn sum_around(&self, a: NodeIndex) -> Result<i64, Refusal> {
        let mut sum = 0;
        ask!(self, net_sum_around(a.0, &mut sum))?;
        Ok(sum)
    }

    /// Whether the network is sound, with its directory: the rows read, or its first fault.
    pub fn check(&self) -> Result<u32, Fault> {
        let (mut rows, mut direction, mut node) = (0, 0, 0);
        let answer = ask_either!(
            self,
            net_check | net_dir_check(&mut rows, &mut direction, &mut node)
        );
        match answer {
            Ok(()) => Ok(rows),
            Err(Refusal::Broken) if direction == 0 => {
                Err(Fault::At(EdgeDirection::Outgoing, NodeIndex(node)))
            }
            Err(Refusal::Broken) => Err(Fault::At(EdgeDirection::Incoming, NodeIndex(node))),
            Err(_) => Err(Fault::Tables),
        }
    }

    /// Takes out an edge; the last row takes its place. With a directory refused [`Refusal::Broken`] also where
    /// the entry of one of the two does not name it.
    pub fn remove_edge(&mut self, e: EdgeIndex) -> Result<EdgeRemoved, Refusal> {
        let (t, directory) = (&mut self.tables, &mut self.directory);
        removed(|weight, moved, rows| {
            change_either!(
                t,
                directory,
                net_remove_edge | net_dir_remove_edge(t.n, &mut t.m, e.0, weight, moved, rows)
            )
        })
    }

    /// Takes out the edge that bears a register number: [`Network::find_number`], then [`Network::remove_edge`].
    pub fn remove_number(&mut self, number: u32) -> Result<EdgeRemoved, Refusal> {
        let (t, d) = (&mut self.tables, self.directory.as_deref_mut());
        let d = d.unwrap_or(&mut []);
        removed(|weight, moved, rows| {
            let (at, length) = (d.as_mut_ptr(), d.len());
            change!(
                t,
                net_dir_remove_number(t.n, &mut t.m, at, length, number, weight, moved, rows)
            )
        })
    }

    /// Takes out a node with its edges, whose weights go to `edge_callback`; the last node takes its place.
    pub fn remove_node_with<F>(
        &mut self,
        a: NodeIndex,
        edge_callback: F,
    ) -> Result<NodeRemoved, Refusal>
    where
        F: FnMut(u32),
    {
        let mut removed = NodeRemoved { weight: 0, rows: 0 };
        let weights = grown(|items| {
            let count;
            (removed, count) = self.remove_node_into(a, items)?;
            Ok(count)
        })?;
        weights.into_iter().for_each(edge_callback);
        Ok(removed)
    }

    /// The same with the weights into a table that may be too short; how many.
    pub fn remove_node_into(
        &mut self,
        a: NodeIndex,
        items: &mut [u32],
    ) -> Result<(NodeRemoved, usize), Refusal> {
        let (mut weight, mut rows) = (0, 0);
        let (t, directory) = (&mut self.tables, &mut self.directory);
        let (weight_at, rows_at) = (&mut weight, &mut rows);
        let count = filled(items, |at, length, count| {
            let (n, m) = (&mut t.n, &mut t.m);
            change_either!(
                t,
                directory,
                net_remove_node
                    | net_dir_remove_node(n, m, a.0, at, length, weight_at, rows_at, count)
            )
        })?;
        Ok((NodeRemoved { weight, rows }, count))
    }

    /// Takes out all nodes and edges.
    pub fn clear(&mut self) -> Result<(), Refusal> {
        let (t, directory) = (&mut self.tables, &mut self.directory);
        change_either!(t, directory, net_clear | net_dir_clear(&mut t.n, &mut t.m))
    }

    /// Takes out all edges.
    pub fn clear_edges(&mut self) -> Result<(), Refusal> {
        let (t, directory) = (&mut self.tables, &mut self.directory);
        change_either!(
            t,
            directory,
            net_clear_edges | net_dir_clear_edges(t.n, &mut t.m)
        )
    }

    /// The network as an image.
    pub fn image_write(&self) -> Result<Vec<u8>, Refusal> {
        let nodes = self.node_count().min(self.tables.weights.len());
        let edges = self.edge_count().min(self.tables.registers.len());
        let mut bytes = vec![0; 13 + 12 * nodes + 20 * edges];
        self.image_write_into(&mut bytes)?;
        Ok(bytes)
    }

    /// The same into a table that may be too short; how many bytes.
    pub fn image_write_into(&self, bytes: &mut [u8]) -> Result<usize, Refusal> {
        let (at, size, mut length) = (bytes.as_mut_ptr(), bytes.len(), 0);
        ask_either!(
            self,
            net_image_write | net_dir_image_write(at, size, &mut length)
        )?;
        Ok(length as usize)
    }

    /// The network that an image has, in place of this one; a directory becomes that of its rows. One with
    /// broken links leaves this one empty; so does, with a directory, one with a number that has no cell
    /// ([`Refusal::Beyond`]) or that two edges bear ([`Refusal::Taken`]).
    pub fn image_read(&mut self, bytes: &[u8]) -> Result<(), Refusal> {
        let (t, directory) = (&mut self.tables, &mut self.directory);
        let (at, length) = (bytes.as_ptr(), bytes.len());
        change_either!(
            t,
            directory,
            net_image_read | net_dir_image_read(&mut t.n, &mut t.m, at, length)
        )
    }
}

/// The items that a table has room for at first.
const FIRST_LENGTH: usize = 64;

/// Lends a call the cells for an edge that it takes out.
fn removed(
    call: impl FnOnce(*mut u32, *mut u32, *mut u32) -> Result<(), Refusal>,
) -> Result<EdgeRemoved, Refusal> {
    let (mut weight, mut moved, mut rows) = (0, 0, 0);
    call(&mut weight, &mut moved, &mut rows)?;
    let moved = (moved != END).then_some(EdgeIndex(moved));
    Ok(EdgeRemoved {
        weight,
        moved,
        rows,
    })
}

/// Lends a call the output table, its length and a count; how many items it gave.
fn filled(
    items: &mut [u32],
    call: impl FnOnce(*mut u32, usize, *mut u32) -> Result<(), Refusal>,
) -> Result<usize, Refusal> {
    let mut count = 0;
    call(items.as_mut_ptr(), items.len(), &mut count)?;
    Ok(count as usize)
}

/// The items of a call that fills a table and tells how many. The table grows while the call is refused 7,
/// which has then changed nothing.
fn grown(mut call: impl FnMut(&mut [u32]) -> Result<usize, Refusal>) -> Result<Vec<u32>, Refusal> {
    let mut items = vec![0; FIRST_LENGTH];
    loop {
        match call(&mut items) {
            Err(Refusal::Short) => items = vec![0; 2 * items.len()],
            Err(why) => return Err(why),
            Ok(count) => {
                items.truncate(count);
                return Ok(items);
            }
        }
    }
}

fn edges_of(rows: Result<Vec<u32>, Refusal>) -> Result<Vec<EdgeIndex>, Refusal> {
    Ok(rows?.into_iter().map(EdgeIndex).collect())
}
