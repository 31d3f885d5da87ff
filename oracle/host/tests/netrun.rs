//! The program `netrun` prints what the oracle says, however its input comes.

use std::fs::File;
use std::io::Write;
use std::process::{Command, Output, Stdio};
use std::thread::sleep;
use std::time::Duration;

use oracle::generate::script;

fn netrun() -> Command {
    let program = concat!(env!("CARGO_MANIFEST_DIR"), "/../../make/program.sh");
    let mut command = Command::new(program);
    command.arg("netrun");
    command.stdout(Stdio::piped()).stderr(Stdio::piped());
    command
}

/// What the program does with an input that comes in these pieces.
fn output(pieces: &[&[u8]]) -> Output {
    let mut program = netrun().stdin(Stdio::piped()).spawn().unwrap();
    let mut input = program.stdin.take().unwrap();
    for (place, piece) in pieces.iter().enumerate() {
        if place > 0 {
            sleep(Duration::from_millis(20));
        }
        input.write_all(piece).unwrap();
    }
    drop(input);
    program.wait_with_output().unwrap()
}

/// It prints what the oracle says, and says nothing else.
fn agrees(pieces: &[&[u8]]) {
    let Output { stdout, stderr, .. } = output(pieces);
    assert!(stdout == oracle::netrun(&pieces.concat()));
    assert_eq!(String::from_utf8(stderr).unwrap(), "");
}

#[test]
fn generated_scripts() {
    for index in 0..200 {
        agrees(&[&script(1, index).script]);
    }
}

#[test]
fn reading_1_a_stop_by_7_and_a_script_too_long() {
    agrees(&[&[b'\n'; 3_276]]);
    agrees(&[&[b'\n'; 3_277]]);
    agrees(&[&[b'x'; 16_384]]);
    agrees(&[&[b'x'; 16_385]]);
}

#[test]
fn reading_10_input_in_pieces() {
    agrees(&[b"N", b" 5\nN -", b"3\nE 0 1 10", b"\nW 1\n"]);
    agrees(&[&[b'x'; 16_384], b"x"]);
}

/// More than a pipe holds: the script is read to its end, so whoever writes it can end too.
#[test]
fn a_script_far_too_long_is_read_to_its_end() {
    agrees(&[&vec![b'\n'; 1_000_000]]);
}

#[test]
fn an_input_that_cannot_be_read_is_not_run() {
    let folder = File::open(env!("CARGO_MANIFEST_DIR")).unwrap();
    let Output { stdout, stderr, .. } = netrun().stdin(folder).output().unwrap();
    assert_eq!(stdout, b"");
    assert_eq!(stderr, b"netrun: standard input cannot be read\n");
}

#[test]
fn an_output_that_cannot_be_written_is_told() {
    let full = File::create("/dev/full").unwrap();
    let mut program = netrun().stdin(Stdio::piped()).stdout(full).spawn().unwrap();
    program.stdin.take().unwrap().write_all(b"S\n").unwrap();
    let Output { stderr, .. } = program.wait_with_output().unwrap();
    assert_eq!(stderr, b"netrun: standard output cannot be written\n");
}
