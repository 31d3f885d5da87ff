//! A script in the making, together with the network that it leads to.

use super::random::Random;
use crate::line::parse;
use crate::network::Network;

/// The network is kept so that most numbers can name a node or an edge that is there.
pub struct Draft {
    pub random: Random,
    pub script: Vec<u8>,
    network: Network,
}

/// A line taken apart: its letter and its numbers as they are spelled.
pub struct Words {
    pub letter: u8,
    pub numbers: Vec<String>,
}

impl Words {
    pub fn line(&self) -> Vec<u8> {
        let mut line = vec![self.letter];
        for number in &self.numbers {
            line.push(b' ');
            line.extend_from_slice(number.as_bytes());
        }
        line
    }
}

impl Draft {
    pub fn new(random: Random) -> Self {
        Draft {
            random,
            script: Vec::new(),
            network: Network::default(),
        }
    }

    /// Nodes in the network so far.
    pub fn nodes(&self) -> usize {
        self.network.graph().node_count()
    }

    /// Edges in the network so far.
    pub fn edges(&self) -> usize {
        self.network.graph().edge_count()
    }

    /// Adds a line, be it a command or not.
    pub fn line(&mut self, line: &[u8]) {
        self.script.extend_from_slice(line);
        self.script.push(b'\n');
        if let Some(command) = parse(line) {
            // Refused commands belong into a script as well as served ones.
            let _ = self.network.obey(command);
        }
    }

    /// Adds a line with one of these letters.
    pub fn command(&mut self, letters: &[u8]) {
        let letter = self.random.pick(letters);
        let words = self.words(letter);
        self.line(&words.line());
    }

    /// A line with this letter and numbers chosen for it.
    pub fn words(&mut self, letter: u8) -> Words {
        let numbers = match letter {
            b'N' => vec![self.node_weight()],
            b'E' | b'U' => {
                let [a, b] = self.node_pair();
                vec![a, b, self.edge_weight()]
            }
            b'F' | b'B' => self.node_pair().to_vec(),
            b'X' => vec![self.edge()],
            b'D' | b'W' | b'G' | b'M' | b'A' => vec![self.node()],
            _ => Vec::new(),
        };
        Words { letter, numbers }
    }

    /// Two nodes, often the same one: self-loops are where lists are easy to get wrong.
    fn node_pair(&mut self) -> [String; 2] {
        let a = self.node();
        let b = if self.random.one_in(4) {
            a.clone()
        } else {
            self.node()
        };
        [a, b]
    }

    fn node(&mut self) -> String {
        let number = self.below_mostly(self.nodes());
        self.spell(number)
    }

    fn edge(&mut self) -> String {
        let number = self.below_mostly(self.edges());
        self.spell(number)
    }

    /// A number below `count`, now and then one past it.
    fn below_mostly(&mut self, count: usize) -> i64 {
        if count == 0 || self.random.one_in(16) {
            self.past(count)
        } else {
            self.random.below(count) as i64
        }
    }

    /// A number at or past `count`: the next ones, those at the limits, the largest of all.
    pub fn past(&mut self, count: usize) -> i64 {
        let count = count as i64;
        let number = self.random.pick(&[
            count,
            count + 1,
            255,
            256,
            1_023,
            1_024,
            2_147_483_648,
            4_294_967_294,
            4_294_967_295,
            4_294_967_295,
        ]);
        number.max(count)
    }

    fn node_weight(&mut self) -> String {
        let weight = match self.random.below(8) {
            0 => i64::from(
                self.random
                    .pick(&[i32::MIN, i32::MIN + 1, i32::MAX - 1, i32::MAX]),
            ),
            1 => i64::from(self.random.bits() as i32),
            _ => self.random.below(200) as i64 - 100,
        };
        self.spell(weight)
    }

    fn edge_weight(&mut self) -> String {
        let weight = match self.random.below(8) {
            0 => i64::from(self.random.pick(&[0, 1, u32::MAX - 1, u32::MAX])),
            1 => i64::from(self.random.bits()),
            _ => self.random.below(100) as i64,
        };
        self.spell(weight)
    }

    /// Now and then with all ten digits that a number may have.
    fn spell(&mut self, value: i64) -> String {
        if self.random.one_in(40) {
            spell_long(value)
        } else {
            value.to_string()
        }
    }
}

/// A number in ten digits.
pub fn spell_long(value: i64) -> String {
    let sign = if value < 0 { "-" } else { "" };
    format!("{sign}{:010}", value.abs())
}
