//! The sample of calls that crates/original computes from its definitions, with what graph.rs
//! answers and the rows that it leaves: the text of the table in specs/Recorded.antt.

use std::fmt::Write;
use std::panic::{AssertUnwindSafe, catch_unwind};

use crate::graph::{EdgeDirection, EdgeIndex, NodeIndex};
use crate::network::Graph;
use crate::{EdgeRow, NodeRow, of_rows};

/// A call, by the name that it has in the table.
#[derive(Clone, Copy, Debug)]
pub enum Call {
    Rows(&'static [NodeRow], &'static [EdgeRow]),
    AddNode(i32),
    AddEdge(u32, u32, u32),
    UpdateEdge(u32, u32, u32),
    SetNodeWeight(u32, i32),
    SetEdgeWeight(u32, u32),
    NodeWeight(u32),
    EdgeWeight(u32),
    EdgeEndpoints(u32),
    FirstEdge(u32, EdgeDirection),
    NextEdge(u32, EdgeDirection),
    FindEdge(u32, u32),
    ContainsEdge(u32, u32),
    Neighbors(u32),
    EdgesOf(u32),
    EdgeWeights(u32),
    EdgesBetween(u32, u32),
    EdgesMut(u32),
    EdgeWeightsMut(u32),
    AllEdgeWeights,
    RemoveEdge(u32),
    RemoveNode(u32),
    ClearEdges,
    Clear,
}

use Call::*;

/// What a call gives: nothing, numbers, or a node's weight and numbers.
enum Answer {
    Nothing,
    Numbers(Vec<u32>),
    Weight(i32, Vec<u32>),
}

use Answer::{Nothing, Numbers, Weight};

fn numbers(found: Option<Vec<u32>>) -> Answer {
    found.map_or(Nothing, Numbers)
}

/// Makes a call on graph.rs; it may panic.
fn perform(graph: &mut Graph, call: Call) -> Answer {
    match call {
        Rows(nodes, edges) => {
            *graph = of_rows(nodes, edges);
            Numbers(vec![])
        }
        AddNode(w) => Numbers(vec![graph.add_node(w).0]),
        AddEdge(a, b, w) => Numbers(vec![graph.add_edge(NodeIndex(a), NodeIndex(b), w).0]),
        UpdateEdge(a, b, w) => Numbers(vec![graph.update_edge(NodeIndex(a), NodeIndex(b), w).0]),
        SetNodeWeight(a, w) => {
            graph[NodeIndex(a)] = w;
            Numbers(vec![])
        }
        SetEdgeWeight(e, w) => {
            graph[EdgeIndex(e)] = w;
            Numbers(vec![])
        }
        NodeWeight(a) => graph
            .node_weight(NodeIndex(a))
            .map_or(Nothing, |&w| Weight(w, vec![])),
        EdgeWeight(e) => numbers(graph.edge_weight(EdgeIndex(e)).map(|&w| vec![w])),
        EdgeEndpoints(e) => numbers(
            graph
                .edge_endpoints(EdgeIndex(e))
                .map(|(a, b)| vec![a.0, b.0]),
        ),
        FirstEdge(a, d) => numbers(graph.first_edge(NodeIndex(a), d).map(|e| vec![e.0])),
        NextEdge(e, d) => numbers(graph.next_edge(EdgeIndex(e), d).map(|e| vec![e.0])),
        FindEdge(a, b) => numbers(
            graph
                .find_edge(NodeIndex(a), NodeIndex(b))
                .map(|e| vec![e.0]),
        ),
        ContainsEdge(a, b) => Numbers(vec![graph.contains_edge(NodeIndex(a), NodeIndex(b)) as u32]),
        Neighbors(a) => Numbers(graph.neighbors(NodeIndex(a)).map(|b| b.0).collect()),
        EdgesOf(a) => Numbers(
            graph
                .edges(NodeIndex(a))
                .flat_map(|e| [e.index().0, e.source().0, e.target().0, *e.weight()])
                .collect(),
        ),
        EdgeWeights(a) => Numbers(graph.edge_weights(NodeIndex(a)).copied().collect()),
        EdgesBetween(a, b) => {
            let between = graph.edges_between(NodeIndex(a), NodeIndex(b));
            Numbers(between.map(|e| e.index().0).collect())
        }
        EdgesMut(a) => Numbers(graph.edges_mut(NodeIndex(a)).map(|e| e.index().0).collect()),
        EdgeWeightsMut(a) => {
            // The definitions name a weight that is lent by its row: here every row weighs its number.
            let before: Vec<u32> = graph.all_edge_weights().copied().collect();
            for e in 0..before.len() as u32 {
                graph[EdgeIndex(e)] = e;
            }
            let rows = graph.edge_weights_mut(NodeIndex(a)).map(|w| *w).collect();
            for (e, &w) in before.iter().enumerate() {
                graph[EdgeIndex(e as u32)] = w;
            }
            Numbers(rows)
        }
        AllEdgeWeights => Numbers(graph.all_edge_weights().copied().collect()),
        RemoveEdge(e) => numbers(graph.remove_edge(EdgeIndex(e)).map(|w| vec![w])),
        RemoveNode(a) => {
            let mut given = vec![];
            let removed = graph.remove_node_with(NodeIndex(a), |w| given.push(w));
            removed.map_or(Nothing, |w| Weight(w, given))
        }
        ClearEdges => {
            graph.clear_edges();
            Numbers(vec![])
        }
        Clear => {
            graph.clear();
            Numbers(vec![])
        }
    }
}

const END: u32 = u32::MAX;

/// A head that names an edge where there is none.
const LOST_HEAD: Call = Rows(&[(5, [0, END])], &[]);

/// Edge 0 stands in two incoming lists.
const LINKED_TWICE: Call = Rows(
    &[(0, [2, 0]), (0, [END, 0])],
    &[
        (60, [END, 1], [0, 0]),
        (61, [0, 2], [0, 1]),
        (62, [1, END], [0, 1]),
    ],
);

/// The networks that calls are tried on, each by the calls that make it.
fn networks() -> Vec<(String, Vec<Call>)> {
    let mut all = vec![
        ("nothing".to_string(), vec![]),
        (
            "network_a".to_string(),
            vec![
                AddNode(5),
                AddNode(-3),
                AddNode(8),
                AddEdge(0, 1, 10),
                AddEdge(1, 2, 11),
                AddEdge(0, 2, 12),
                AddEdge(1, 1, 13),
            ],
        ),
        (
            "loops".to_string(),
            vec![
                AddNode(1),
                AddNode(-2147483648),
                AddEdge(0, 0, 20),
                AddEdge(0, 0, 21),
                AddEdge(0, 1, 22),
                AddEdge(1, 1, 23),
            ],
        ),
        (
            "parallel".to_string(),
            vec![
                AddNode(1),
                AddNode(2),
                AddEdge(0, 1, 30),
                AddEdge(0, 1, 31),
                AddEdge(1, 0, 32),
                AddEdge(0, 1, 33),
            ],
        ),
        (
            "hub".to_string(),
            vec![
                AddNode(0),
                AddNode(1),
                AddNode(2),
                AddNode(3),
                AddEdge(0, 1, 40),
                AddEdge(2, 0, 41),
                AddEdge(0, 3, 42),
                AddEdge(0, 0, 43),
                AddEdge(3, 0, 44),
                AddEdge(1, 2, 45),
                AddEdge(0, 2, 46),
            ],
        ),
    ];
    all.push(("lost_head".to_string(), vec![LOST_HEAD]));
    all.push(("linked_twice".to_string(), vec![LINKED_TWICE]));
    let mut chance = Chance(1);
    for index in 0..MIXED {
        let nodes = 1 + chance.below(4);
        let mut calls: Vec<Call> = (0..nodes).map(|a| AddNode(a as i32 - 1)).collect();
        for e in 0..chance.below(7) {
            calls.push(AddEdge(chance.below(nodes), chance.below(nodes), 50 + e));
            if chance.below(5) == 0 {
                calls.push(RemoveEdge(chance.below(e + 1)));
            }
        }
        all.push((format!("mixed{index}"), calls));
    }
    all
}

/// How many networks are made by chance.
const MIXED: u32 = 5;

/// A sequence of numbers that is always the same.
struct Chance(u64);

impl Chance {
    fn below(&mut self, end: u32) -> u32 {
        self.0 = self
            .0
            .wrapping_mul(6364136223846793005)
            .wrapping_add(1442695040888963407);
        ((self.0 >> 33) % end as u64) as u32
    }
}

/// The calls that are tried on a network of that name, with so many nodes and edges.
fn tried(name: &str, nodes: u32, edges: u32) -> Vec<Call> {
    // On damaged rows only what comes to an end.
    match name {
        "lost_head" => return vec![RemoveEdge(0), RemoveNode(0)],
        "linked_twice" => return vec![RemoveEdge(0)],
        _ => {}
    }
    let mut calls = vec![];
    if name == "network_a" {
        use EdgeDirection::{Incoming, Outgoing};
        calls.extend([
            AddNode(7),
            AddEdge(2, 2, 14),
            AddEdge(2, 0, 14),
            AddEdge(0, 9, 14),
        ]);
        calls.extend([
            UpdateEdge(2, 1, 99),
            UpdateEdge(0, 0, 99),
            UpdateEdge(0, 9, 99),
        ]);
        calls.extend([
            SetNodeWeight(1, -9),
            SetNodeWeight(3, 9),
            SetEdgeWeight(3, 9),
            SetEdgeWeight(4, 9),
        ]);
        calls.extend([NodeWeight(1), NodeWeight(3), EdgeWeight(3), EdgeWeight(4)]);
        calls.extend([
            EdgeEndpoints(2),
            EdgeEndpoints(4),
            FirstEdge(1, Incoming),
            FirstEdge(2, Outgoing),
        ]);
        calls.extend([
            FirstEdge(3, Outgoing),
            NextEdge(3, Incoming),
            NextEdge(1, Outgoing),
            NextEdge(4, Outgoing),
        ]);
        calls.extend([
            FindEdge(2, 1),
            FindEdge(1, 1),
            FindEdge(0, 0),
            FindEdge(3, 0),
        ]);
        calls.extend([
            ContainsEdge(2, 0),
            ContainsEdge(0, 0),
            AllEdgeWeights,
            ClearEdges,
            Clear,
        ]);
    }
    if !name.starts_with("mixed") {
        // Network A around every node and a missing one, the others around one node.
        for a in 0..=if name == "network_a" { nodes } else { 0 } {
            calls.extend([
                Neighbors(a),
                EdgesOf(a),
                EdgeWeights(a),
                EdgesBetween(a, 1),
                EdgesMut(a),
                EdgeWeightsMut(a),
            ]);
        }
    }
    calls.extend((0..=edges).map(RemoveEdge));
    calls.extend((0..=nodes).map(RemoveNode));
    calls
}

/// The table: the networks with their rows, then a case for each call that is tried.
pub fn table() -> String {
    let mut text = String::new();
    let mut cases = vec![];
    for (name, calls) in networks() {
        let made: Vec<String> = calls.iter().map(|&call| written(call)).collect();
        write!(
            text,
            "abbrev pub {name} : List Call\n{name} = {}\n\n",
            list(&made)
        )
        .unwrap();
        let mut graph = Graph::default();
        for &call in &calls {
            perform(&mut graph, call);
        }
        let before = rows(&graph);
        write!(
            text,
            "abbrev pub {name}_rows : Graph\n{name}_rows = {before}\n\n"
        )
        .unwrap();
        for call in tried(&name, graph.node_count() as u32, graph.edge_count() as u32) {
            let mut after = graph.clone();
            let answer = catch_unwind(AssertUnwindSafe(|| perform(&mut after, call)));
            let outcome = match answer {
                Err(_) => "panics".to_string(),
                Ok(answer) if rows(&after) == before => {
                    format!("(returns ({}, {name}_rows))", told(&answer))
                }
                Ok(answer) => format!("(returns ({}, {}))", told(&answer), rows(&after)),
            };
            let call = written(call);
            let call = if call.contains(' ') {
                format!("({call})")
            } else {
                call
            };
            cases.push(format!("case {name} {call} {outcome}"));
        }
    }
    // A case a line.
    text + "abbrev pub recorded : List Case
recorded =
    " + &cases.join(
        "
    ∷ ",
    ) + "
    ∷ []
"
}

fn list(items: &[String]) -> String {
    items
        .iter()
        .map(|item| format!("{item} ∷ "))
        .collect::<String>()
        + "[]"
}

/// A list as an operand.
fn operand(items: &[String]) -> String {
    if items.is_empty() {
        list(items)
    } else {
        format!("({})", list(items))
    }
}

fn many(items: &[u32]) -> String {
    operand(&items.iter().map(u32::to_string).collect::<Vec<_>>())
}

fn signed(w: i32) -> String {
    if w < 0 {
        format!("(negsuc {})", -(w as i64) - 1)
    } else {
        format!("(pos {w})")
    }
}

fn written(call: Call) -> String {
    let direction = |d| {
        if d == EdgeDirection::Outgoing {
            "Outgoing"
        } else {
            "Incoming"
        }
    };
    match call {
        Rows(nodes, edges) => format!("Rows ({})", rows(&of_rows(nodes, edges))),
        AddNode(w) => format!("AddNode {}", signed(w)),
        AddEdge(a, b, w) => format!("AddEdge {a} {b} {w}"),
        UpdateEdge(a, b, w) => format!("UpdateEdge {a} {b} {w}"),
        SetNodeWeight(a, w) => format!("SetNodeWeight {a} {}", signed(w)),
        SetEdgeWeight(e, w) => format!("SetEdgeWeight {e} {w}"),
        NodeWeight(a) => format!("NodeWeight {a}"),
        EdgeWeight(e) => format!("EdgeWeight {e}"),
        EdgeEndpoints(e) => format!("EdgeEndpoints {e}"),
        FirstEdge(a, d) => format!("FirstEdge {a} {}", direction(d)),
        NextEdge(e, d) => format!("NextEdge {e} {}", direction(d)),
        FindEdge(a, b) => format!("FindEdge {a} {b}"),
        ContainsEdge(a, b) => format!("ContainsEdge {a} {b}"),
        Neighbors(a) => format!("Neighbors {a}"),
        EdgesOf(a) => format!("EdgesOf {a}"),
        EdgeWeights(a) => format!("EdgeWeights {a}"),
        EdgesBetween(a, b) => format!("EdgesBetween {a} {b}"),
        EdgesMut(a) => format!("EdgesMut {a}"),
        EdgeWeightsMut(a) => format!("EdgeWeightsMut {a}"),
        AllEdgeWeights => "AllEdgeWeights".to_string(),
        RemoveEdge(e) => format!("RemoveEdge {e}"),
        RemoveNode(a) => format!("RemoveNode {a}"),
        ClearEdges => "ClearEdges".to_string(),
        Clear => "Clear".to_string(),
    }
}

fn told(answer: &Answer) -> String {
    match answer {
        Nothing => "Nothing".to_string(),
        Numbers(items) => format!("Numbers {}", many(items)),
        Weight(w, items) => format!("Weight {} {}", signed(*w), many(items)),
    }
}

/// The rows of a graph; a link that names no edge is `END`.
fn rows(graph: &Graph) -> String {
    let link = |e: Option<EdgeIndex>| e.map_or("END".to_string(), |e| e.0.to_string());
    let nodes: Vec<String> = (0..graph.node_count() as u32)
        .map(NodeIndex)
        .map(|a| {
            let [outgoing, incoming] = EdgeDirection::ALL.map(|d| link(graph.first_edge(a, d)));
            format!("node {} {outgoing} {incoming}", signed(graph[a]))
        })
        .collect();
    let edges: Vec<String> = (0..graph.edge_count() as u32)
        .map(EdgeIndex)
        .map(|e| {
            let [outgoing, incoming] = EdgeDirection::ALL.map(|d| link(graph.next_edge(e, d)));
            let (source, target) = graph.edge_endpoints(e).expect("an edge below the count");
            format!(
                "edge {} {outgoing} {incoming} {} {}",
                graph[e], source.0, target.0
            )
        })
        .collect();
    format!("graph {} {}", operand(&nodes), operand(&edges))
}
