//! A case on which the two sides differ, cut down while they still do.

use oracle::generate::{Case, written};

use crate::outcome::{Outcome, Run};

/// Drops lines, drops bytes, lowers numbers and then the room, until nothing more can go.
pub fn shrink(ours: Run, case: Case) -> Case {
    let mut cut = Cut { ours, case };
    loop {
        let before = cut.case.clone();
        cut.drop_parts(lines);
        cut.drop_parts(bytes);
        cut.lower_numbers();
        cut.lower_room();
        if cut.case == before {
            return before;
        }
    }
}

/// The smallest case so far.
struct Cut {
    ours: Run,
    case: Case,
}

impl Cut {
    /// Takes this case instead, if the two sides differ on it too.
    fn take(&mut self, case: Case) -> bool {
        let differ = Outcome::of(self.ours, &case) != Outcome::of(oracle::run, &case);
        if differ {
            self.case = case;
        }
        differ
    }

    /// Takes this script instead. Where a mismatch lies in how an answer meets the end of its
    /// buffer, the buffer has to change with the answer: to one that just fits or lacks a byte.
    fn take_script(&mut self, script: &[u8]) -> bool {
        let whole = written(script);
        let rooms = [self.case.out_len, whole, whole.saturating_sub(1)];
        rooms.into_iter().any(|out_len| {
            let script = script.to_vec();
            self.take(Case { script, out_len })
        })
    }

    /// Leaves out parts of the script: many at once as long as that can be, then fewer.
    fn drop_parts(&mut self, parts: fn(&[u8]) -> Vec<&[u8]>) {
        let mut size = parts(&self.case.script).len();
        while size > 0 {
            let mut start = 0;
            while let Some(script) = without(parts(&self.case.script), start, size) {
                if !self.take_script(&script) {
                    start += size;
                }
            }
            size /= 2;
        }
    }

    /// Lowers each number of the script.
    fn lower_numbers(&mut self) {
        let mut start = 0;
        while start < self.case.script.len() {
            let (before, rest) = self.case.script.split_at(start);
            let (number, after) = rest.split_at(digits(rest));
            let [before, number, after] = [before, number, after].map(Vec::from);
            lower(value(&number), |lower| {
                let number = lower.to_string().into_bytes();
                self.take_script(&[&before[..], &number, &after].concat())
            });
            start += digits(&self.case.script[start..]).max(1);
        }
    }

    /// Takes a buffer that the Rust's whole answer just fits, so that it can be read, or else as
    /// short a one as can be.
    fn lower_room(&mut self) {
        let whole = written(&self.case.script);
        if !self.take(self.case.with_room(whole)) {
            lower(self.case.out_len, |room| {
                self.take(self.case.with_room(room))
            });
        }
    }
}

fn lines(script: &[u8]) -> Vec<&[u8]> {
    script.split_inclusive(|&byte| byte == b'\n').collect()
}

fn bytes(script: &[u8]) -> Vec<&[u8]> {
    script.chunks(1).collect()
}

/// All parts but those from `start` on, `size` of them; `None` if there are none there.
fn without(parts: Vec<&[u8]>, start: usize, size: usize) -> Option<Vec<u8>> {
    let (before, rest) = parts.split_at_checked(start)?;
    let after = rest.get(size..).unwrap_or_default();
    (!rest.is_empty()).then(|| [before, after].concat().concat())
}

/// How many digits these bytes begin with.
fn digits(bytes: &[u8]) -> usize {
    let digits = bytes.iter().take_while(|byte| byte.is_ascii_digit());
    digits.count()
}

/// The value of digits: 0, from which nothing is lower, if there are none or far too many.
fn value(digits: &[u8]) -> usize {
    let digits = str::from_utf8(digits).unwrap_or_default();
    digits.parse().unwrap_or_default()
}

/// Goes down from a number as far as `take` lets it, by steps that get smaller: to 0 if it can.
fn lower(from: usize, mut take: impl FnMut(usize) -> bool) {
    let mut value = from;
    let mut step = from;
    while step > 0 {
        if step <= value && take(value - step) {
            value -= step;
        } else {
            step /= 2;
        }
    }
}
