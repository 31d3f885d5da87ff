//! What the generated cases reach.

mod reach;

use std::sync::LazyLock;

use oracle::generate::{Case, script};

const SEED: u64 = 1;

static CASES: LazyLock<Vec<Case>> =
    LazyLock::new(|| (0..6_000).map(|index| script(SEED, index)).collect());

#[test]
fn the_same_seed_and_index_give_the_same_case() {
    for index in 0..200 {
        assert_eq!(script(SEED, index), script(SEED, index));
    }
    assert_ne!(script(SEED, 0), script(SEED + 1, 0));
    assert_ne!(script(SEED, 0), script(SEED, 1));
}

#[test]
fn every_command_and_every_refusal_is_reached() {
    reach::every_answer(&CASES);
}

#[test]
fn the_limits_of_the_tables_are_reached() {
    reach::the_limits_of_the_tables(&CASES);
}

#[test]
fn full_tables_meet_the_commands_that_mind() {
    reach::full_tables(&CASES);
}

#[test]
fn scripts_of_every_size_are_reached() {
    reach::sizes(&CASES, &[0, 1, 16_383, 16_384, 16_385, 16_386, 32_768]);
}

#[test]
fn outputs_end_everywhere_in_their_buffers() {
    reach::every_ending(&CASES);
}

#[test]
fn every_kind_of_odd_line_is_reached() {
    reach::every_odd_line(&CASES);
}

#[test]
fn inputs_without_a_line_or_without_a_last_newline_are_reached() {
    reach::every_last_line(&CASES);
}
