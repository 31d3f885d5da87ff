//! A run, and what it leaves.

use std::fmt::{self, Display, Formatter};

use oracle::generate::Case;
use oracle::run::answer_and_length;

/// A run: script bytes in, answer bytes out. It returns the answer number times 2^32 plus the
/// bytes written.
pub type Run = fn(script: &[u8], out: &mut [u8]) -> u64;

/// Bytes behind the buffer, which no run may touch either.
const MARGIN: usize = 64;

/// The result of a run, and every byte of its buffer and of the margin behind it. Two outcomes of
/// a case are equal if answer number, bytes written and all these bytes are.
#[derive(Debug, PartialEq, Eq)]
pub struct Outcome {
    result: u64,
    bytes: Vec<u8>,
}

impl Outcome {
    pub fn of(run: Run, case: &Case) -> Self {
        let mut bytes: Vec<u8> = (0..case.out_len + MARGIN).map(mark).collect();
        let result = run(&case.script, &mut bytes[..case.out_len]);
        Outcome { result, bytes }
    }

    /// The answer number.
    pub fn number(&self) -> u64 {
        answer_and_length(self.result).0
    }

    /// The bytes said to be written, as far as there is a buffer for them.
    fn written(&self) -> &[u8] {
        let (_, length) = answer_and_length(self.result);
        &self.bytes[..length.min(self.bytes.len() - MARGIN)]
    }

    /// The first byte past those that has lost its mark.
    fn touched(&self) -> Option<usize> {
        (self.written().len()..self.bytes.len()).find(|&at| self.bytes[at] != mark(at))
    }
}

/// What a byte holds before a run: no byte of an answer, and not what its neighbours hold.
fn mark(at: usize) -> u8 {
    0x80 + (at % 0x80) as u8
}

impl Display for Outcome {
    fn fmt(&self, f: &mut Formatter) -> fmt::Result {
        let (number, length) = answer_and_length(self.result);
        writeln!(f, "answer {number}, bytes written {length}")?;
        write!(f, "{}", Lines(self.written()))?;
        if let Some(at) = self.touched() {
            writeln!(f, "  and byte {at}, past these, is touched")?;
        }
        Ok(())
    }
}

/// Bytes, each line on one of its own. Newlines and bytes that are no text are shown by escapes.
pub struct Lines<'a>(pub &'a [u8]);

impl Display for Lines<'_> {
    fn fmt(&self, f: &mut Formatter) -> fmt::Result {
        for line in self.0.split_inclusive(|&byte| byte == b'\n') {
            writeln!(f, "    {}", line.escape_ascii())?;
        }
        Ok(())
    }
}
