//! Rows read, counted a second time: by making the searches of the order on tables of
//! rows and counting every edge row that one visits.

use oracle::generate::script;
use oracle::graph::{EdgeDirection, EdgeIndex, NodeIndex};
use oracle::line::{Command, lines, parse};
use oracle::network::{Answer, Graph, Network};

const END: u32 = u32::MAX;

/// An edge row without its weight: links and ends, outgoing first.
#[derive(Clone, Copy, Debug, PartialEq)]
struct Row {
    links: [u32; 2],
    ends: [u32; 2],
}

/// A cell that holds a link: a node's head, or a link in an edge row.
#[derive(Clone, Copy)]
enum Cell {
    Head(u32),
    Link(u32),
}

#[derive(Default)]
struct Tables {
    heads: Vec<[u32; 2]>,
    rows: Vec<Row>,
}

impl Tables {
    fn cell(&mut self, cell: Cell, k: usize) -> &mut u32 {
        match cell {
            Cell::Head(node) => &mut self.heads[node as usize][k],
            Cell::Link(row) => &mut self.rows[row as usize].links[k],
        }
    }

    fn add_edge(&mut self, a: u32, b: u32) {
        let new = self.rows.len() as u32;
        let links = [self.heads[a as usize][0], self.heads[b as usize][1]];
        self.rows.push(Row {
            links,
            ends: [a, b],
        });
        self.heads[a as usize][0] = new;
        self.heads[b as usize][1] = new;
    }

    /// Starts at the head and succeeds at a link equal to what it seeks. The head cell
    /// costs nothing, every edge row visited costs one.
    fn search(&mut self, sought: u32, node: u32, k: usize) -> (Cell, usize) {
        let mut cell = Cell::Head(node);
        let mut visited = 0;
        loop {
            let link = *self.cell(cell, k);
            if link == sought {
                return (cell, visited);
            }
            cell = Cell::Link(link);
            visited += 1;
        }
    }

    /// Four searches: `e` in its two lists and, if it is not the last row, that row in
    /// its own two lists with `e` bypassed. Gives the edge rows visited.
    fn remove_edge(&mut self, e: u32) -> usize {
        let mut visited = 0;
        let gone = self.rows[e as usize];
        for k in [0, 1] {
            let (cell, rows) = self.search(e, gone.ends[k], k);
            *self.cell(cell, k) = gone.links[k];
            visited += rows;
        }
        let last = self.rows.len() as u32 - 1;
        if e != last {
            for k in [0, 1] {
                let (cell, rows) = self.search(last, self.rows[last as usize].ends[k], k);
                *self.cell(cell, k) = e;
                visited += rows;
            }
        }
        self.rows.swap_remove(e as usize);
        visited
    }

    /// Removes the head edge till both lists are empty, then moves the last node in and
    /// walks its two lists to renumber it. Gives the edge rows visited.
    fn remove_node(&mut self, a: u32) -> usize {
        let mut visited = 0;
        for k in [0, 1] {
            while self.heads[a as usize][k] != END {
                visited += self.remove_edge(self.heads[a as usize][k]);
            }
        }
        self.heads.swap_remove(a as usize);
        if let Some(&moved) = self.heads.get(a as usize) {
            for k in [0, 1] {
                let mut link = moved[k];
                while link != END {
                    self.rows[link as usize].ends[k] = a;
                    visited += 1;
                    link = self.rows[link as usize].links[k];
                }
            }
        }
        visited
    }

    /// Follows a command that was served with this answer.
    fn follow(&mut self, command: Command, answer: Answer) {
        match (command, answer) {
            (Command::AddNode(_), _) => self.heads.push([END; 2]),
            (Command::AddEdge(a, b, _), _) => self.add_edge(a.0, b.0),
            // An edge that was found has a row already.
            (Command::UpdateEdge(a, b, _), Answer::Edge(e)) if e.index() == self.rows.len() => {
                self.add_edge(a.0, b.0);
            }
            (Command::RemoveEdge(e), Answer::RemovedEdge { rows, .. }) => {
                assert_eq!(rows, self.remove_edge(e.0));
            }
            (Command::RemoveNode(a), Answer::RemovedNode { rows, .. }) => {
                assert_eq!(rows, self.remove_node(a.0));
            }
            (Command::ClearEdges, _) => {
                self.rows.clear();
                self.heads.fill([END; 2]);
            }
            (Command::Clear, _) => *self = Tables::default(),
            _ => {}
        }
    }
}

/// The tables of the graph itself.
fn tables(graph: &Graph) -> (Vec<[u32; 2]>, Vec<Row>) {
    let cell = |link: Option<EdgeIndex>| link.map_or(END, |e| e.0);
    let head = |number| {
        let node = NodeIndex(number as u32);
        EdgeDirection::ALL.map(|direction| cell(graph.first_edge(node, direction)))
    };
    let row = |number| {
        let e = EdgeIndex(number as u32);
        let (source, target) = graph.edge_endpoints(e).unwrap();
        Row {
            links: EdgeDirection::ALL.map(|direction| cell(graph.next_edge(e, direction))),
            ends: [source.0, target.0],
        }
    };
    let heads = (0..graph.node_count()).map(head).collect();
    let rows = (0..graph.edge_count()).map(row).collect();
    (heads, rows)
}

#[test]
fn positions_in_lists_and_rows_visited_are_the_same_number() {
    for index in 0..1_000 {
        let mut network = Network::default();
        let mut model = Tables::default();
        for command in lines(&script(12, index).script).filter_map(parse) {
            if let Ok(answer) = network.obey(command) {
                model.follow(command, answer);
            }
            let (heads, rows) = tables(network.graph());
            assert_eq!(model.heads, heads);
            assert_eq!(model.rows, rows);
        }
    }
}

/// The longest list of a network.
fn longest_list(graph: &Graph) -> usize {
    let (_, rows) = tables(graph);
    let length = |node: usize, k: usize| {
        let listed = rows.iter().filter(|row| row.ends[k] == node as u32);
        listed.count()
    };
    let lengths = (0..graph.node_count()).flat_map(|node| [length(node, 0), length(node, 1)]);
    lengths.max().unwrap_or(0)
}

#[test]
fn removals_read_no_more_rows_than_the_longest_list_allows() {
    for index in 0..300 {
        let mut network = Network::default();
        for command in lines(&script(13, index).script).filter_map(parse) {
            let longest = longest_list(network.graph());
            match network.obey(command) {
                Ok(Answer::RemovedEdge { rows, .. }) => assert!(rows <= 4 * (longest - 1)),
                Ok(Answer::RemovedNode {
                    rows, edge_weights, ..
                }) => {
                    let edges = edge_weights.len();
                    let before = longest.saturating_sub(1);
                    assert!(rows <= 3 * edges * before + 2 * longest);
                }
                _ => {}
            }
        }
    }
}
