//! The list that the program `replay` asks the proved run, and what graph.rs answers to it.
//!
//! First come the scripts of `by_hand`, then short ones of the generator. The program `record`
//! writes the two files of crates/replay; `tests/replay.rs` holds them to this list.

mod by_hand;

use crate::generate::{Case, script, written};
use crate::run::{answer_and_length, run};

/// The seed of the generated scripts, and how many of them there are.
const SEED: u64 = 7;
const GENERATED: usize = 100;

/// The longest of them and of their outputs, in bytes. Many short ones show more than few long ones.
const SHORT_SCRIPT: usize = 1_000;
const SHORT_OUTPUT: usize = 1_500;

/// The list.
pub fn cases() -> Vec<Case> {
    let short =
        |case: &Case| case.script.len() <= SHORT_SCRIPT && written(&case.script) <= SHORT_OUTPUT;
    let generated = (0..).map(|index| script(SEED, index)).filter(short);
    by_hand::cases()
        .into_iter()
        .chain(generated.take(GENERATED))
        .collect()
}

/// What the program reads: how many scripts there are; then for each its place in the list, its
/// length and that of its buffer, in five digits, and its bytes and a newline.
pub fn questions(cases: &[Case]) -> Vec<u8> {
    let mut list = format!("{:05}\n", cases.len()).into_bytes();
    for (place, Case { script, out_len }) in cases.iter().enumerate() {
        let length = script.len();
        list.extend(format!("{place:05} {length:05} {out_len:05}\n").bytes());
        list.extend(script);
        list.push(b'\n');
    }
    list
}

/// What the program has to print: for each script its place, the answer number, the bytes
/// written and how many bytes past these were touched, which is none; then the bytes written.
pub fn answers(cases: &[Case]) -> Vec<u8> {
    let mut list = Vec::new();
    for (place, Case { script, out_len }) in cases.iter().enumerate() {
        let mut out = vec![0; *out_len];
        let (number, written) = answer_and_length(run(script, &mut out));
        list.extend(format!("{place}: {number} {written} 0\n").bytes());
        list.extend(&out[..written]);
    }
    list
}
