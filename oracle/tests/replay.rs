//! The files that the program `replay` is held to, and what its list reaches.

mod reach;

use std::fs;

use oracle::replay::{answers, cases, questions};

/// A file of crates/replay.
fn recorded(name: &str) -> Vec<u8> {
    let folder = concat!(env!("CARGO_MANIFEST_DIR"), "/../crates/replay");
    fs::read(format!("{folder}/{name}")).expect(name)
}

#[test]
fn the_files_are_what_graph_rs_answers_now() {
    let cases = cases();
    assert!(
        questions(&cases) == recorded("stdin"),
        "run the program `record`"
    );
    assert!(
        answers(&cases) == recorded("stdout"),
        "run the program `record`"
    );
}

#[test]
fn the_list_reaches_every_command_refusal_and_limit() {
    let cases = cases();
    assert!(cases.len() >= 200);
    reach::every_answer(&cases);
    reach::the_limits_of_the_tables(&cases);
    reach::full_tables(&cases);
    reach::sizes(&cases, &[0, 1, 16_384, 16_385]);
    reach::every_ending(&cases);
    reach::every_odd_line(&cases);
    reach::every_last_line(&cases);
}
