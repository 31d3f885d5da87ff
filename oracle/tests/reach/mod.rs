//! What a list of cases reaches, each with its own buffer. Asserted of the generated cases and of
//! those that `replay` runs.

use std::collections::BTreeSet;

use oracle::generate::Case;
use oracle::line::{lines, parse};
use oracle::network::{EDGE_ROWS, NODE_ROWS, Network};
use oracle::run;
use oracle::run::answer_and_length;

/// Letter and number of every answer line. No others are ever printed.
const ANSWERS: [&str; 25] = [
    "N 0", "N 2", "E 0", "E 2", "E 3", "U 0", "U 2", "U 3", "F 0", "F 3", "F 5", "X 0", "X 4",
    "D 0", "D 3", "W 0", "G 0", "M 0", "B 0", "A 0", "A 3", "S 0", "C 0", "Z 0", "? 10",
];

/// The answer number of a case, and the lines that are written.
fn answered(case: &Case) -> (u64, String) {
    let mut out = vec![0; case.out_len];
    let (number, written) = answer_and_length(run(&case.script, &mut out));
    out.truncate(written);
    (number, String::from_utf8(out).unwrap())
}

/// Letter and number of each line that is written.
fn answers(case: &Case) -> Vec<String> {
    let (_, lines) = answered(case);
    let start = |line: &str| line.split(' ').take(2).collect::<Vec<_>>().join(" ");
    lines.lines().map(start).collect()
}

/// Every command with every number that it can answer, bad lines, and every number of a run.
pub fn every_answer(cases: &[Case]) {
    let lines: BTreeSet<String> = cases.iter().flat_map(answers).collect();
    assert_eq!(lines, ANSWERS.map(String::from).into());
    let runs: BTreeSet<u64> = cases.iter().map(|case| answered(case).0).collect();
    assert_eq!(runs, [0, 1, 7].into());
}

/// The last node row and the last edge row in use, and an answer of 2,048 items.
pub fn the_limits_of_the_tables(cases: &[Case]) {
    for start in ["N 0 255\n", "E 0 1023\n", "M 0 2048 "] {
        let reached = |case: &Case| {
            let (_, lines) = answered(case);
            lines
                .split_inclusive('\n')
                .any(|line| line.starts_with(start))
        };
        assert!(cases.iter().any(reached), "{start}");
    }
}

/// The state of the tables, if they are full or about to be.
fn fullness(network: &Network) -> Option<&'static str> {
    let graph = network.graph();
    match (
        NODE_ROWS - graph.node_count(),
        EDGE_ROWS - graph.edge_count(),
    ) {
        (_, 0) => Some("no edge row free"),
        (_, 1) => Some("one edge row free"),
        (0, _) => Some("no node row free"),
        _ => None,
    }
}

/// The commands that mind how many rows are free, with the rows free that they mind.
pub fn full_tables(cases: &[Case]) {
    let mut reached = BTreeSet::new();
    for case in cases {
        let mut network = Network::default();
        // Lines past the last one written do not count.
        for (line, answer) in lines(&case.script).zip(answers(case)) {
            let Some(command) = parse(line) else { continue };
            if let Some(fullness) = fullness(&network) {
                reached.insert(format!("{answer}, {fullness}"));
            }
            let _ = network.obey(command);
        }
    }
    for wanted in [
        "N 2, no node row free",
        "D 0, no node row free",
        "E 2, no edge row free",
        "U 0, no edge row free",
        "U 2, no edge row free",
        "X 0, no edge row free",
        "E 0, one edge row free",
        "E 3, one edge row free",
        "D 0, one edge row free",
    ] {
        assert!(reached.contains(wanted), "{wanted}");
    }
}

/// Scripts of these lengths, and a script as long as can be that is run to its end.
pub fn sizes(cases: &[Case], sizes: &[usize]) {
    for &size in sizes {
        assert!(cases.iter().any(|case| case.script.len() == size), "{size}");
    }
    let mut longest = cases.iter().filter(|case| case.script.len() == 16_384);
    assert!(longest.any(|case| answered(case).0 == 0));
}

/// Where an output ends in its buffer.
fn ending(case: &Case) -> Option<&'static str> {
    let (answer, lines) = answered(case);
    let (whole_answer, whole) = answered(&case.with_room(16_384));
    let (written, needed) = (lines.len(), whole.len());
    match (answer, case.out_len) {
        (7, 0) => Some("no room"),
        (0, room) if room > 16_384 => Some("more room than counts"),
        (7, room) if room > 16_384 => Some("more room than counts, and not enough"),
        (0, 16_384) if written == 16_384 => Some("all the room, full"),
        (7, 16_384) if written == 16_384 => Some("all the room, full, and not enough"),
        (7, 16_384) => Some("all the room, and not enough"),
        (0, room) if room == written => Some("fits exactly"),
        (7, room) if whole_answer == 0 && room + 1 == needed => Some("one byte past"),
        (7, room) if room == written => Some("ends with a whole line"),
        (7, _) => Some("within a line"),
        _ => None,
    }
}

/// Outputs that end everywhere in their buffers.
pub fn every_ending(cases: &[Case]) {
    let reached: BTreeSet<&str> = cases.iter().filter_map(ending).collect();
    assert_eq!(reached.len(), 10, "{reached:?}");
}

/// A way in which a line is odd.
type Oddity = (&'static str, fn(&[u8]) -> bool);

/// True if one of the line's numbers is spelled like this.
fn number(line: &[u8], spelled: &str) -> bool {
    line.split(|&byte| byte == b' ')
        .skip(1)
        .any(|word| word == spelled.as_bytes())
}

const ODDITIES: [Oddity; 24] = [
    ("empty", |line| line.is_empty()),
    ("weight -0", |line| line == b"N -0"),
    ("weight -0000000000", |line| line == b"N -0000000000"),
    ("weight -2147483648", |line| line == b"N -2147483648"),
    ("weight -2147483649", |line| line == b"N -2147483649"),
    ("weight 2147483647", |line| line == b"N 2147483647"),
    ("weight 2147483648", |line| line == b"N 2147483648"),
    ("minus zero elsewhere", |line| {
        !line.starts_with(b"N") && number(line, "-0")
    }),
    ("4294967295", |line| number(line, "4294967295")),
    ("4294967296", |line| number(line, "4294967296")),
    ("9999999999", |line| number(line, "9999999999")),
    ("eleven digits", |line| number(line, "00000000001")),
    ("eleven digits after -", |line| number(line, "-00000000000")),
    ("plus", |line| number(line, "+1")),
    ("carriage return", |line| line.ends_with(b"\r")),
    ("tab", |line| line.contains(&b'\t')),
    ("nul", |line| line.contains(&0)),
    ("trailing space", |line| line.ends_with(b" ")),
    ("leading space", |line| line.starts_with(b" ")),
    ("double space", |line| {
        line.windows(2).any(|pair| pair == b"  ")
    }),
    ("small letter", |line| {
        line.first().is_some_and(u8::is_ascii_lowercase)
    }),
    ("byte above 127", |line| !line.is_ascii()),
    ("missing numbers", |line| line == b"E" || line == b"N"),
    ("extra numbers", |line| line.starts_with(b"S ")),
];

/// Every kind of odd line.
pub fn every_odd_line(cases: &[Case]) {
    let mut missed: BTreeSet<&str> = ODDITIES.iter().map(|oddity| oddity.0).collect();
    for line in cases.iter().flat_map(|case| lines(&case.script)) {
        for (name, odd) in ODDITIES {
            if odd(line) {
                missed.remove(name);
            }
        }
    }
    assert!(missed.is_empty(), "{missed:?}");
}

/// No line, an empty one, empty ones at the end, and a command without a newline behind it.
pub fn every_last_line(cases: &[Case]) {
    let reached = |wanted: fn(&Case) -> bool| cases.iter().any(wanted);
    assert!(reached(|case| case.script.is_empty()));
    assert!(reached(|case| case.script == b"\n"));
    assert!(reached(|case| case.script.ends_with(b"\n\n")));
    assert!(reached(|case| {
        let last = lines(&case.script).last();
        !case.script.ends_with(b"\n") && last.and_then(parse).is_some()
    }));
}
