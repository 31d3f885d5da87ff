//! Images: the order's image of one node, network A written and read back, every prefix of A's image and every change of one of its
//! bytes. by_hand/images.txt has the lines that have to come out; oracle/image_cases.py works the same lines out. A line on a call has the
//! answer number and the answer's value, then bytes or tables behind a bar. A line on many has how often each answer number was given, 0 to 9,
//! and how often something was not left as the order says (never).

mod shown;

use waterways::{END, Network, Refusal, Tables};

const LINES: &str = include_str!("by_hand/images.txt");

/// The length of network A's image.
const LENGTH: usize = 129;

/// Four node rows and five edge rows, every one in use, and 7 in every cell: no call reads or writes this without a trace.
fn sevens() -> Tables {
    Tables {
        weights: vec![7; 4],
        heads: vec![7; 8],
        registers: vec![7; 5],
        links: vec![7; 10],
        ends: vec![7; 10],
        n: 4,
        m: 5,
    }
}

/// Network A in as many rows; the rows past its own are not in use, and hold 9.
fn network_a() -> Tables {
    Tables {
        weights: vec![5, -3, 8, 9],
        heads: vec![2, END, 3, 3, END, 2, 9, 9],
        registers: vec![10, 11, 12, 13, 9],
        links: vec![END, END, END, END, 0, 1, 1, 0, 9, 9],
        ends: vec![0, 1, 1, 2, 0, 2, 1, 1, 9, 9],
        n: 3,
        m: 4,
    }
}

/// Its counts are above the rows lent.
fn unfit() -> Tables {
    Tables {
        n: 5,
        ..network_a()
    }
}

/// Edge 2 is the first of node 1's outgoing list too.
fn broken() -> Tables {
    let mut tables = network_a();
    tables.heads[2] = 2;
    tables
}

fn image_of(tables: &Tables) -> Vec<u8> {
    let mut bytes = vec![0; LENGTH];
    let length = Network::from_tables(tables.clone()).image_write_into(&mut bytes);
    assert_eq!(length, Ok(LENGTH));
    bytes
}

/// The answer of a read into these tables, and the tables afterwards.
fn read(bytes: &[u8], lent: Tables) -> (Result<(), Refusal>, Tables) {
    let mut network = Network::from_tables(lent);
    let answer = network.image_read(bytes);
    (answer, network.into_tables())
}

fn number(answer: Result<(), Refusal>) -> String {
    shown::answer(answer, |()| String::new())
}

fn state(answer: Result<(), Refusal>, t: &Tables) -> String {
    format!("{} | {} {}{}", number(answer), t.n, t.m, shown::columns(t))
}

fn hexadecimal(bytes: &[u8]) -> String {
    let bytes: String = bytes.iter().map(|x| format!(" {x:02X}")).collect();
    format!(" |{bytes}")
}

/// One node weighing -3, no edges. 24 bytes of its image are no image, and leave the tables as they were.
fn one_node(lines: &mut Vec<String>) {
    let mut network = Network::with_rows(1, 1).expect("within the limits");
    network.add_node(-3).expect("a row is free");
    let mut bytes = [0; 25];
    let length = network.image_write_into(&mut bytes);
    let length = shown::answer(length, |length| format!(" {length}"));
    lines.push(format!("one node:{length}{}", hexadecimal(&bytes)));
    let (answer, after) = read(&bytes[..24], sevens());
    lines.push(format!("24 bytes of it:{}", state(answer, &after)));
}

/// Written, and read back into other tables.
fn there_and_back(lines: &mut Vec<String>, image: &[u8]) {
    lines.push(format!("network A:{}", state(Ok(()), &network_a())));
    lines.push(format!("its image:{}", hexadecimal(image)));
    let (answer, after) = read(image, sevens());
    lines.push(format!("read back:{}", state(answer, &after)));
}

/// A served read has left three nodes and four edges, the rows past them are vacant, and the image of it all is what was read.
fn served(bytes: &[u8], t: &Tables) -> bool {
    let vacant = t.weights[3] == 0
        && t.registers[4] == 0
        && t.heads[6..] == [END; 2]
        && t.links[8..] == [END; 2]
        && t.ends[8..] == [END; 2];
    vacant && (t.n, t.m) == (3, 4) && image_of(t) == bytes
}

/// 6 empties all that was lent; any other refusal leaves it.
fn left_right(bytes: &[u8], answer: Result<(), Refusal>, after: &Tables) -> bool {
    match answer {
        Ok(()) => served(bytes, after),
        Err(Refusal::Broken) => {
            let empty = Network::with_rows(4, 5).expect("within the limits");
            after == empty.tables()
        }
        Err(_) => after == &sevens(),
    }
}

fn tally(images: impl Iterator<Item = Vec<u8>>) -> String {
    let (mut counts, mut wrong) = ([0; 10], 0);
    for bytes in images {
        let (answer, after) = read(&bytes, sevens());
        counts[answer.map_or_else(Refusal::number, |()| 0) as usize] += 1;
        wrong += u32::from(!left_right(&bytes, answer, &after));
    }
    format!("{} | {wrong}", shown::cells(&counts))
}

/// The first 0, 1, .. 129 bytes; then each byte with each other value.
fn prefixes_and_changes(lines: &mut Vec<String>, image: &[u8]) {
    let prefixes = (0..=LENGTH).map(|length| image[..length].to_vec());
    lines.push(format!("prefixes:{}", tally(prefixes)));
    let places = (0..LENGTH).flat_map(|at| (0..=255).map(move |x| (at, x)));
    let changes = places.filter(|(at, x)| image[*at] != *x).map(|(at, x)| {
        let mut bytes = image.to_vec();
        bytes[at] = x;
        bytes
    });
    lines.push(format!("changes:{}", tally(changes)));
}

/// Faults one on top of the other: the first in the order's sequence is told.
fn faults(lines: &mut Vec<String>, image: &[u8]) {
    let mut bytes = image.to_vec();
    let (sound, _) = read(&bytes, sevens());
    lines.push(format!("read, sound:{}", number(sound)));
    for (label, at, x) in [
        ("with a wrong head:", 17, 3),
        ("and a length for another m:", 9, 3),
        ("and n above the rows lent:", 5, 5),
        ("and another version:", 4, 1),
        ("and another mark:", 1, 0),
    ] {
        bytes[at] = x;
        let (answer, _) = read(&bytes, sevens());
        lines.push(format!("{label}{}", number(answer)));
    }
    let (answer, _) = read(&bytes, unfit());
    lines.push(format!("and counts lent above the rows:{}", number(answer)));
}

/// The answer, then the first three bytes of the output and those past the image: AA where nothing was written.
fn writes(lines: &mut Vec<String>) {
    for (label, tables, room) in [
        ("write, room for two more:", network_a(), LENGTH + 2),
        ("one byte short:", network_a(), LENGTH - 1),
        ("and broken:", broken(), LENGTH - 1),
        ("and counts above the rows:", unfit(), LENGTH - 1),
    ] {
        let mut bytes = [0xAA; LENGTH + 2];
        let length = Network::from_tables(tables).image_write_into(&mut bytes[..room]);
        let answer = shown::answer(length, |length| format!(" {length}"));
        let (front, past) = (hexadecimal(&bytes[..3]), hexadecimal(&bytes[LENGTH..]));
        lines.push(format!("{label}{answer}{front}{past}"));
    }
}

#[test]
fn every_image_is_answered_as_was_worked_out() {
    let (image, mut lines) = (image_of(&network_a()), Vec::new());
    one_node(&mut lines);
    there_and_back(&mut lines, &image);
    prefixes_and_changes(&mut lines, &image);
    faults(&mut lines, &image);
    writes(&mut lines);
    let expected: Vec<&str> = LINES.lines().collect();
    for (line, expected) in lines.iter().zip(&expected) {
        assert_eq!(line, expected);
    }
    assert_eq!(lines.len(), expected.len());
}
