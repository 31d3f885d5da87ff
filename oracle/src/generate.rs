//! Scripts made from a seed. The same seed and index give the same case, always.

mod draft;
mod kinds;
pub(crate) mod odd;
mod random;

use crate::run::{OUTPUT_LIMIT, answer_and_length, run};
use draft::Draft;
use random::Random;

/// A script and the length of the output buffer to run it with.
#[derive(Clone, Debug, PartialEq, Eq)]
pub struct Case {
    pub script: Vec<u8>,
    pub out_len: usize,
}

impl Case {
    /// The same script with another buffer.
    pub fn with_room(&self, out_len: usize) -> Self {
        let script = self.script.clone();
        Case { script, out_len }
    }
}

/// A kind of script, and how many of a thousand cases are of it. The short ones are many.
type Kind = (usize, fn(&mut Draft));

const KINDS: [Kind; 13] = [
    (380, kinds::mixed),
    (160, kinds::removals),
    (160, kinds::odd_lines),
    (80, kinds::missing),
    (80, kinds::updates),
    (60, kinds::damaged),
    (30, kinds::large),
    (20, kinds::tiny),
    (6, kinds::full_nodes),
    (6, kinds::full_edges),
    (6, kinds::long_output),
    (6, kinds::exact_output),
    (6, kinds::sized),
];

/// The case of this number. Every case is made from its own random numbers, so that one
/// can be had without those before it.
pub fn script(seed: u64, index: u64) -> Case {
    let mut draft = Draft::new(Random::new(seed, index));
    let make = kind(&mut draft.random);
    make(&mut draft);
    let out_len = out_len(&mut draft.random, &draft.script);
    Case {
        script: draft.script,
        out_len,
    }
}

fn kind(random: &mut Random) -> fn(&mut Draft) {
    let mut number = random.below(1_000);
    for (share, make) in KINDS {
        if number < share {
            return make;
        }
        number -= share;
    }
    unreachable!("the shares add up to a thousand")
}

/// Mostly all the room there is; else one at which the output just fits, does not fit by
/// one byte, or breaks off anywhere, no room at all, or more than counts.
fn out_len(random: &mut Random, script: &[u8]) -> usize {
    match random.below(24) {
        0 | 1 => written(script),
        2 | 3 => written(script).saturating_sub(1),
        4 | 5 => random.below(written(script) + 1),
        6 => random.below(3),
        7 => OUTPUT_LIMIT + random.between(1, 5_000),
        _ => OUTPUT_LIMIT,
    }
}

/// Short buffers for the script of the case of this number: one that its whole output just fits,
/// one that lacks a byte, and one that ends anywhere.
pub fn short_rooms(seed: u64, index: u64, script: &[u8]) -> [usize; 3] {
    let whole = written(script);
    // Not the numbers that the case itself is made from.
    let shorter = Random::new(!seed, index).below(whole + 1);
    [whole, whole.saturating_sub(1), shorter]
}

/// The bytes a script writes where it has all the room there is.
pub fn written(script: &[u8]) -> usize {
    let mut out = [0; OUTPUT_LIMIT];
    let (_, written) = answer_and_length(run(script, &mut out));
    written
}
