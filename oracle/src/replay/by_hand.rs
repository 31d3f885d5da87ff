//! Scripts by hand: the order's cases, every command at every node and edge of network A, every
//! way to take a network down, lines with every byte and every odd number, and each limit.

use crate::generate::Case;
use crate::generate::odd::{LETTERS, NUMBERS};
use crate::network::{EDGE_ROWS, NODE_ROWS};
use crate::run::{OUTPUT_LIMIT, SCRIPT_LIMIT};

/// Network A of the order, the state before X.
const NETWORK_A: &str = "N 5\nN -3\nN 8\nE 0 1 10\nE 1 2 11\nE 0 2 12\nE 1 1 13\n";

/// Three nodes with self-loops and parallel edges.
const LOOPS: &str = "N 1\nN 2\nN 3\nE 0 0 20\nE 0 1 21\nE 1 0 22\nE 0 0 23\nE 0 1 24\n\
                     E 1 1 25\nE 2 2 26\nE 2 0 27\nE 1 2 28\n";

/// Shows both lists of nodes 0 to 2, and how many edges there are.
const SURVEY: &str = "G 0\nM 0\nG 1\nM 1\nG 2\nM 2\nS\n";

pub fn cases() -> Vec<Case> {
    let mut list = List::default();
    few_lines(&mut list);
    commands(&mut list);
    removals(&mut list);
    operand_counts(&mut list);
    odd_bytes(&mut list);
    odd_numbers(&mut list);
    full_tables(&mut list);
    longest_scripts(&mut list);
    longest_outputs(&mut list);
    rooms(&mut list);
    list.cases
}

#[derive(Default)]
struct List {
    cases: Vec<Case>,
}

impl List {
    /// A script with all the room there is.
    fn add(&mut self, script: impl Into<Vec<u8>>) {
        self.add_for(OUTPUT_LIMIT, script);
    }

    fn add_for(&mut self, out_len: usize, script: impl Into<Vec<u8>>) {
        let script = script.into();
        self.cases.push(Case { script, out_len });
    }
}

/// With and without a last newline, empty lines, the empty network, refusals that stop nothing,
/// numbers at the ends of their ranges.
fn few_lines(list: &mut List) {
    for script in [
        "",
        "\n",
        "\n\n",
        "S",
        "S\n",
        "S\n\nS",
        "S\r\nS\n",
        "W 0\nG 0\nM 0\nB 0 0\nF 0 0\nA 0\nX 0\nD 0\nE 0 0 1\nU 0 0 1\nS\nC\nZ\n",
        "D 0\nhm\nN 1\n",
        "N -0\nD 0\nN -0000000000\nD 0\n",
        "N -2147483648\nN 2147483647\nE 0 0 1\nE 0 0 2\nE 1 1 3\nE 1 1 4\nA 0\nA 1\n",
        "N 1\nE 0 0 4294967295\nX 0\n",
        "E 0 4294967295 0\nF 4294967295 0\nX 4294967295\nD 4294967295\nW 4294967295\n",
    ] {
        list.add(script);
    }
}

/// The order's script; then every command on network A, at each node and edge and past them.
fn commands(list: &mut List) {
    list.add(format!("{NETWORK_A}W 1\nM 1\nX 0\nD 9\n"));
    let mut on_network_a = |command: String| list.add(format!("{NETWORK_A}{command}\n{SURVEY}"));
    for command in ["N 7", "S", "C", "Z"] {
        on_network_a(command.to_string());
    }
    for letter in ["W", "G", "M", "A", "D", "X"] {
        for number in 0..5 {
            on_network_a(format!("{letter} {number}"));
        }
    }
    for a in 0..4 {
        for b in 0..4 {
            on_network_a(format!("F {a} {b}\nB {a} {b}"));
            on_network_a(format!("E {a} {b} 14"));
            on_network_a(format!("U {a} {b} 14"));
        }
    }
}

/// Network A taken down edge by edge, and both networks node by node, in every order.
fn removals(list: &mut List) {
    for e in 0..4 {
        for f in 0..3 {
            for g in 0..2 {
                list.add(format!(
                    "{NETWORK_A}X {e}\n{SURVEY}X {f}\n{SURVEY}X {g}\n{SURVEY}X 0\n{SURVEY}"
                ));
            }
        }
    }
    for network in [NETWORK_A, LOOPS] {
        for a in 0..3 {
            for b in 0..2 {
                list.add(format!(
                    "{network}D {a}\n{SURVEY}D {b}\n{SURVEY}D 0\n{SURVEY}"
                ));
            }
        }
    }
}

/// Every letter with none to four numbers.
fn operand_counts(list: &mut List) {
    let mut script = LOOPS.to_string();
    for &letter in LETTERS {
        for count in 0..5 {
            script.push(char::from(letter));
            script += &" 0".repeat(count);
            script.push('\n');
        }
    }
    list.add(script);
}

/// Every byte in some places of a line: alone, before, within and behind a command.
fn odd_bytes(list: &mut List) {
    for (before, after) in [
        ("", ""),
        ("", "W 0"),
        ("W", "0"),
        ("N ", ""),
        ("W 0", ""),
        ("S", ""),
    ] {
        let mut script = Vec::new();
        for byte in (0..=255).filter(|&byte| byte != b'\n') {
            script.extend(before.bytes());
            script.push(byte);
            script.extend(after.bytes());
            script.push(b'\n');
        }
        list.add(script);
    }
}

/// Every number at the edge of what is one, as every operand of every command.
fn odd_numbers(list: &mut List) {
    for (letter, operands) in [
        ("N", 1),
        ("E", 3),
        ("U", 3),
        ("F", 2),
        ("X", 1),
        ("D", 1),
        ("W", 1),
        ("G", 1),
        ("M", 1),
        ("B", 2),
        ("A", 1),
    ] {
        let mut script = "N 1\nN 2\nE 0 1 3\nE 1 1 4\n".to_string();
        for place in 0..operands {
            for number in NUMBERS {
                let mut words = vec!["0"; operands];
                words[place] = number;
                script += &format!("{letter} {}\n", words.join(" "));
            }
        }
        list.add(script);
    }
}

/// All 256 nodes and all 1,024 edges, and what is refused then and just before.
fn full_tables(list: &mut List) {
    let nodes = "N 1\n".repeat(NODE_ROWS);
    list.add(format!(
        "{nodes}N 2\nE 255 255 3\nE 255 256 4\nE 256 255 5\nW 255\nD 0\nN 6\nA 255\nN 7\nS\n"
    ));
    let edges = "E 0 0 7\n".repeat(EDGE_ROWS - 1);
    list.add(format!(
        "N 1\n{edges}E 0 1 8\nU 1 0 8\nE 0 0 8\nE 0 1 9\nU 1 0 9\nU 0 0 9\nM 0\nX 1023\nE 0 0 7\n"
    ));
    let edges = "E 0 1 7\n".repeat(EDGE_ROWS);
    list.add(format!(
        "N 1\nN 2\n{edges}E 0 1 8\nW 0\nG 1\nA 1\nX 0\nD 0\nS\n"
    ));
}

/// A script of 16,384 bytes, and one of 16,385.
fn longest_scripts(list: &mut List) {
    let update = "U 0000000000 0000000000 0000000000\n";
    let longest = format!("N 1\n{}", update.repeat(468));
    assert_eq!(longest.len(), SCRIPT_LIMIT);
    list.add(format!("{longest}\n"));
    list.add(longest);
}

/// Outputs of 16,384 bytes, of one byte more, and of more lines than that.
fn longest_outputs(list: &mut List) {
    // An empty line is answered by 5 bytes, and `C` by 4.
    let but_four = "\n".repeat((OUTPUT_LIMIT - 4) / 5);
    list.add(format!("{but_four}C\n"));
    list.add(format!("{but_four}C\nC\n"));
    // The second line fits where the first does not.
    list.add(format!("{but_four}\nC\n"));
    list.add_for(OUTPUT_LIMIT + 64, format!("{but_four}C\nC\n"));
}

/// Every buffer for a short output, and ones longer than all that counts.
fn rooms(list: &mut List) {
    for room in 0..20 {
        list.add_for(room, "N 5\nW 0\nS\n");
    }
    list.add_for(0, "");
    list.add_for(OUTPUT_LIMIT + 1, "N 5\nW 0\nS\n");
    list.add_for(OUTPUT_LIMIT + 64, "N 5\nW 0\nS\n");
}
