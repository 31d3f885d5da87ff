//! The calls on small networks, sound and broken ones, and on tables that do not fit. by_hand/calls.txt has a line for each case, with
//! the answer that was worked out by hand; the call is made, and the line has to be the same to the byte.

mod shown;

use std::collections::HashMap;
use waterways::{END, EdgeDirection, EdgeIndex, Network, NodeIndex, Tables, Walker};

const LINES: &str = include_str!("by_hand/calls.txt");

/// So many lines are cases. The others say what is lent, or why.
const CASES: usize = 243;

/// The width of a network's name.
const NAME: usize = 11;

/// What every cell of an output table holds before a call.
const BEFORE: u32 = 77;

/// A line behind the network's name.
struct Line<'a> {
    call: &'a str,
    operands: Vec<i64>,
    /// The tables behind the bars.
    tables: Vec<Vec<i64>>,
}

fn number(word: &str) -> i64 {
    match word {
        "END" => i64::from(END),
        _ => word.parse().expect("a number"),
    }
}

fn numbers(words: &str) -> Vec<i64> {
    words.split_whitespace().map(number).collect()
}

fn cells(numbers: &[i64]) -> Vec<u32> {
    let cell = |x: &i64| u32::try_from(*x).expect("a cell");
    numbers.iter().map(cell).collect()
}

impl Line<'_> {
    fn read(line: &str) -> Line<'_> {
        let (asked, answer) = line.split_once(':').unwrap_or((line, ""));
        let (call, operands) = asked.split_once(' ').unwrap_or((asked, ""));
        Line {
            call,
            operands: numbers(operands),
            tables: answer.split('|').skip(1).map(numbers).collect(),
        }
    }

    fn operand(&self, i: usize) -> u32 {
        self.operands[i] as u32
    }

    fn node(&self, i: usize) -> NodeIndex {
        NodeIndex(self.operand(i))
    }

    fn direction(&self) -> EdgeDirection {
        match self.operand(1) {
            0 => EdgeDirection::Outgoing,
            _ => EdgeDirection::Incoming,
        }
    }
}

/// A network, and where its walker stands.
struct Tried {
    tables: Tables,
    /// How many of the node weights are lent.
    lent: usize,
    walker: Walker,
}

impl Tried {
    /// Three node rows and four edge rows.
    fn empty() -> Tried {
        let network = Network::with_rows(3, 4).expect("within the limits");
        Tried {
            tables: network.into_tables(),
            lent: 3,
            walker: Walker([END; 3]),
        }
    }

    fn given(line: &Line) -> Tried {
        let column = |i: usize| cells(&line.tables[i]);
        let weights = line.tables[0].iter().map(|w| *w as i32);
        Tried {
            tables: Tables {
                weights: weights.collect(),
                heads: column(1),
                registers: column(2),
                links: column(3),
                ends: column(4),
                n: line.operand(0),
                m: line.operand(1),
            },
            ..Tried::empty()
        }
    }

    fn network(&self) -> Network {
        let mut tables = self.tables.clone();
        tables.weights.truncate(self.lent);
        Network::from_tables(tables)
    }

    /// The line as it should be; none where it says what is lent.
    fn obey(&mut self, line: &Line) -> Option<String> {
        match line.call {
            "given" => *self = Tried::given(line),
            "lends" => self.lent = line.operand(0) as usize,
            "stands" => self.walker = Walker([0, 1, 2].map(|i| line.operand(i))),
            "tables" => return Some(self.shown()),
            _ => return Some(self.answered(line)),
        }
        None
    }

    fn shown(&self) -> String {
        let t = &self.tables;
        format!("tables {} {}:{}", t.n, t.m, shown::columns(t))
    }

    fn answered(&mut self, line: &Line) -> String {
        let answer = match line.call {
            "add_node" | "add_edge" | "update_edge" => self.change(line),
            "walker" => self.begin(line),
            "step" => self.step(),
            _ if line.tables.is_empty() => self.ask(line),
            _ => self.walk(line),
        };
        let operands: String = match line.call {
            "add_node" => format!(" {}", line.operands[0]),
            _ => shown::numbers(&cells(&line.operands)),
        };
        format!("{}{operands}:{answer}", line.call)
    }

    fn change(&mut self, line: &Line) -> String {
        let mut network = self.network();
        let answer = match line.call {
            "add_node" => network.add_node(line.operands[0] as i32).map(|a| a.0),
            call => {
                let (a, b, w) = (line.node(0), line.node(1), line.operand(2));
                let answer = match call {
                    "add_edge" => network.add_edge(a, b, w),
                    _ => network.update_edge(a, b, w),
                };
                answer.map(|e| e.0)
            }
        };
        let unlent = self.tables.weights.split_off(self.lent);
        self.tables = network.into_tables();
        self.tables.weights.extend(unlent);
        shown::answer(answer, shown::number)
    }

    /// The calls that give one number.
    fn ask(&self, line: &Line) -> String {
        let (network, a) = (self.network(), line.node(0));
        if line.call == "sum_around" {
            return shown::answer(network.sum_around(a), |sum| format!(" {sum}"));
        }
        let answer = match line.call {
            "find_edge" => network.find_edge(a, line.node(1)).map(|e| e.0),
            "contains_edge" => network.contains_edge(a, line.node(1)).map(u32::from),
            "first_edge" => network.first_edge(a, line.direction()).map(|e| e.0),
            "next_edge" => {
                let e = EdgeIndex(line.operand(0));
                network.next_edge(e, line.direction()).map(|e| e.0)
            }
            call => panic!("no such call: {call}"),
        };
        shown::answer(answer, shown::number)
    }

    /// The calls that fill tables, each as long as the line shows it.
    fn walk(&self, line: &Line) -> String {
        let (network, a) = (self.network(), line.node(0));
        let tables = line.tables.iter().map(|cells| vec![BEFORE; cells.len()]);
        let mut tables: Vec<Vec<u32>> = tables.collect();
        let count = match (line.call, &mut tables[..]) {
            ("neighbors", [items]) => network.neighbors_into(a, items),
            ("edge_weights", [items]) => network.edge_weights_into(a, items),
            ("edges_between", [items]) => network.edges_between_into(a, line.node(1), items),
            ("edges_mut", [items]) => network.edges_mut_into(a, items),
            ("edge_weights_mut", [items]) => network.edge_weights_mut_into(a, items),
            ("edges", [numbers, sources, targets]) => {
                network.edges_into(a, numbers, sources, targets)
            }
            (call, tables) => panic!("no such call: {call} with {} tables", tables.len()),
        };
        let answer = shown::answer(count, |count| format!(" {count}"));
        let tables: String = tables.iter().map(|table| shown::cells(table)).collect();
        answer + &tables
    }

    fn begin(&mut self, line: &Line) -> String {
        let begun = self.network().walker(line.node(0));
        self.walker = begun.unwrap_or(self.walker);
        shown::answer(begun, |walker| shown::cells(&walker.0))
    }

    /// The neighbour, and the walker as it then stands.
    fn step(&mut self) -> String {
        let answer = self.network().step(&mut self.walker).map(|b| b.0);
        shown::answer(answer, shown::number) + &shown::cells(&self.walker.0)
    }
}

#[test]
fn every_call_answers_as_was_worked_out() {
    let mut networks = HashMap::new();
    let mut cases = 0;
    for line in LINES.lines() {
        if line.is_empty() || line.starts_with('#') {
            continue;
        }
        let (name, rest) = line.split_at(NAME);
        let network = networks.entry(name).or_insert_with(Tried::empty);
        if let Some(answered) = network.obey(&Line::read(rest)) {
            assert_eq!(format!("{name}{answered}"), line);
            cases += 1;
        }
    }
    assert_eq!(cases, CASES);
}
