//! Wrong runs are found, and what shows them is cut down to its shortest.

use host::{Mismatch, Run, compare};
use oracle::line::{Command, lines, parse};
use oracle::run;

const SEED: u64 = 1;
const COUNT: u64 = 1_000;

/// What a wrong run is found by.
fn found(wrong: Run) -> Mismatch {
    compare(wrong, SEED, COUNT).expect_err("the run is wrong")
}

/// A wrong run is found by this script with a buffer of this length.
fn cut_down(wrong: Run, script: &str, room: usize) {
    let case = found(wrong).case;
    let shown = String::from_utf8_lossy(&case.script);
    assert_eq!((&*shown, case.out_len), (script, room));
}

#[test]
fn the_oracle_agrees_with_itself() {
    let tally = compare(run, SEED, COUNT).expect("it is the same run");
    assert!(tally.to_string().starts_with("4000 runs, "));
}

/// Puts a newline behind its answer.
fn touches_one_byte_more(script: &[u8], out: &mut [u8]) -> u64 {
    let result = run(script, out);
    if let Some(byte) = out.get_mut(result as u32 as usize) {
        *byte = b'\n';
    }
    result
}

/// Answers `M` as if it were `G`.
fn takes_m_for_g(script: &[u8], out: &mut [u8]) -> u64 {
    let letter = |&byte: &u8| if byte == b'M' { b'G' } else { byte };
    run(&script.iter().map(letter).collect::<Vec<_>>(), out)
}

/// Wants a byte more than its answer needs.
fn refuses_an_exact_fit(script: &[u8], out: &mut [u8]) -> u64 {
    let room = out.len().min(16_384);
    run(script, &mut out[..room.saturating_sub(1)])
}

/// Tells the bytes written and no answer number.
fn tells_no_number(script: &[u8], out: &mut [u8]) -> u64 {
    u64::from(run(script, out) as u32)
}

/// Refuses a script with a node weight above 1,000.
fn refuses_large_weights(script: &[u8], out: &mut [u8]) -> u64 {
    let large = |line| matches!(parse(line), Some(Command::AddNode(weight)) if weight > 1_000);
    if lines(script).any(large) {
        return 1 << 32;
    }
    run(script, out)
}

/// Numbers the fourth edge 9.
fn misnumbers_edge_3(script: &[u8], out: &mut [u8]) -> u64 {
    let result = run(script, out);
    for line in out[..result as u32 as usize].split_mut(|&byte| byte == b'\n') {
        if line == b"E 0 3" {
            line[4] = b'9';
        }
    }
    result
}

#[test]
fn wrong_runs_are_found_and_cut_down() {
    cut_down(touches_one_byte_more, "", 1);
    cut_down(takes_m_for_g, "M 0", 6);
    cut_down(refuses_an_exact_fit, "\n", 5);
    cut_down(tells_no_number, "\n", 0);
    cut_down(refuses_large_weights, "N 1001", 6);
    let edges = ["E 0 0 0"; 4].join("\n");
    cut_down(misnumbers_edge_3, &format!("N 0\n{edges}"), 30);
}

/// A mismatch is told like this, but for its first line, which says where it was found.
fn told(wrong: Run, expected: &str) {
    let told = found(wrong).to_string();
    let (_, rest) = told.split_once('\n').unwrap();
    assert_eq!(rest, expected);
}

#[test]
fn both_answers_are_told() {
    told(
        takes_m_for_g,
        "  length 3, buffer 6
    M 0
  the Rust: answer 0, bytes written 6
    M 0 0\\n
  ours: answer 0, bytes written 6
    G 0 0\\n
",
    );
    told(
        touches_one_byte_more,
        "  length 0, buffer 1
  the Rust: answer 0, bytes written 0
  ours: answer 0, bytes written 0
  and byte 0, past these, is touched
",
    );
}
