//! The comparison on the scripts of a seed.

use std::collections::BTreeMap;
use std::fmt::{self, Display, Formatter};

use oracle::generate::{Case, script, short_rooms};

use crate::outcome::{Lines, Outcome, Run};
use crate::shrink::shrink;

/// Compares a run with the oracle's on the scripts 0 to `count` - 1 of a seed, each with the
/// generator's buffer and with short ones. The first mismatch comes cut down to its shortest.
pub fn compare(ours: Run, seed: u64, count: u64) -> Result<Tally, Mismatch> {
    let mut tally = Tally::default();
    for index in 0..count {
        for case in cases(seed, index) {
            let rust = Outcome::of(oracle::run, &case);
            if Outcome::of(ours, &case) != rust {
                let case = shrink(ours, case);
                return Err(Mismatch::of(ours, index, case));
            }
            tally.count(rust.number());
        }
    }
    Ok(tally)
}

/// A script with each of its buffers.
fn cases(seed: u64, index: u64) -> Vec<Case> {
    let case = script(seed, index);
    let mut cases: Vec<Case> = short_rooms(seed, index, &case.script)
        .map(|room| case.with_room(room))
        .into();
    cases.push(case);
    cases
}

/// How often each answer number was given.
#[derive(Debug, Default)]
pub struct Tally {
    runs: u64,
    answers: BTreeMap<u64, u64>,
}

impl Tally {
    fn count(&mut self, number: u64) {
        self.runs += 1;
        *self.answers.entry(number).or_default() += 1;
    }
}

impl Display for Tally {
    fn fmt(&self, f: &mut Formatter) -> fmt::Result {
        write!(f, "{} runs", self.runs)?;
        for (number, times) in &self.answers {
            write!(f, ", {times} answered {number}")?;
        }
        Ok(())
    }
}

/// A case on which the two sides differ, and what each of them left.
#[derive(Debug)]
pub struct Mismatch {
    /// The number of the script in which the mismatch was found.
    pub index: u64,
    /// That script, or what is left of it.
    pub case: Case,
    rust: Outcome,
    ours: Outcome,
}

impl Mismatch {
    fn of(ours: Run, index: u64, case: Case) -> Self {
        Mismatch {
            index,
            rust: Outcome::of(oracle::run, &case),
            ours: Outcome::of(ours, &case),
            case,
        }
    }
}

impl Display for Mismatch {
    fn fmt(&self, f: &mut Formatter) -> fmt::Result {
        let Case { script, out_len } = &self.case;
        writeln!(f, "script {}, cut down:", self.index)?;
        writeln!(f, "  length {}, buffer {out_len}", script.len())?;
        write!(f, "{}", Lines(script))?;
        write!(f, "  the Rust: {}", self.rust)?;
        write!(f, "  ours: {}", self.ours)
    }
}
