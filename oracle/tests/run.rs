//! The run that is compared with the other side's: answer number, bytes written, and no
//! byte touched past them.

use oracle::run;

const DONE: u64 = 0;
const SCRIPT_TOO_LONG: u64 = 1;
const OUTPUT_FULL: u64 = 7;

/// Runs a script with a buffer of `room` bytes.
fn check(script: &[u8], room: usize, answer: u64, expected: &[u8]) {
    let mut out = vec![0xa5; room];
    let written = expected.len();
    assert_eq!(run(script, &mut out), (answer << 32) + written as u64);
    assert_eq!(&out[..written], expected);
    assert!(out[written..].iter().all(|&byte| byte == 0xa5));
}

#[test]
fn the_buffer_ends_the_output_at_a_whole_line() {
    let script = b"N 5\nW 0\nS\n";
    check(script, 18, DONE, b"N 0 0\nW 0 0\nS 0 0\n");
    check(script, 17, OUTPUT_FULL, b"N 0 0\nW 0 0\n");
    check(script, 12, OUTPUT_FULL, b"N 0 0\nW 0 0\n");
    check(script, 11, OUTPUT_FULL, b"N 0 0\n");
    check(script, 0, OUTPUT_FULL, b"");
}

#[test]
fn an_empty_script_needs_no_room() {
    check(b"", 0, DONE, b"");
}

#[test]
fn a_script_too_long_writes_nothing() {
    check(&[b'\n'; 16_385], 100, SCRIPT_TOO_LONG, b"");
    check(&[b'x'; 16_384], 100, DONE, b"? 10\n");
    check(&[b'x'; 16_385], 0, SCRIPT_TOO_LONG, b"");
}

#[test]
fn a_longer_buffer_counts_as_16_384() {
    let script = "\n".repeat(3_276);
    let answers = "? 10\n".repeat(3_276);
    check(script.as_bytes(), 20_000, DONE, answers.as_bytes());
    check(
        format!("{script}\n").as_bytes(),
        20_000,
        OUTPUT_FULL,
        answers.as_bytes(),
    );
}

#[test]
fn refused_and_bad_lines_stop_nothing() {
    check(b"D 0\nhm\nN 1\n", 100, DONE, b"D 3\n? 10\nN 0 0\n");
}
