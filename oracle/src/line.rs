//! The grammar of a script: which lines are commands, and what they say.

use crate::graph::{EdgeIndex, NodeIndex};

/// A command, named after what serves it.
#[derive(Clone, Copy, Debug, PartialEq, Eq)]
pub enum Command {
    /// `N w`
    AddNode(i32),
    /// `E a b w`
    AddEdge(NodeIndex, NodeIndex, u32),
    /// `U a b w`
    UpdateEdge(NodeIndex, NodeIndex, u32),
    /// `F a b`
    FindEdge(NodeIndex, NodeIndex),
    /// `X e`
    RemoveEdge(EdgeIndex),
    /// `D a`
    RemoveNode(NodeIndex),
    /// `W a`
    Neighbors(NodeIndex),
    /// `G a`
    Edges(NodeIndex),
    /// `M a`
    EdgesMut(NodeIndex),
    /// `B a b`
    EdgesBetween(NodeIndex, NodeIndex),
    /// `A a`
    Sum(NodeIndex),
    /// `S`
    Check,
    /// `C`
    ClearEdges,
    /// `Z`
    Clear,
}

/// The lines of a script, without their newlines. A newline at the very end opens no
/// further line, so empty input has no line and a lone newline is one empty line.
pub fn lines(script: &[u8]) -> impl Iterator<Item = &[u8]> {
    script
        .split_inclusive(|&byte| byte == b'\n')
        .map(|line| line.strip_suffix(b"\n").unwrap_or(line))
}

/// What a line commands; `None` if it is no command. Nothing is trimmed.
pub fn parse(line: &[u8]) -> Option<Command> {
    let (&letter, rest) = line.split_first()?;
    let mut numbers = Numbers { rest };
    let command = match letter {
        b'N' => Command::AddNode(numbers.signed()?),
        b'E' => Command::AddEdge(numbers.node()?, numbers.node()?, numbers.unsigned()?),
        b'U' => Command::UpdateEdge(numbers.node()?, numbers.node()?, numbers.unsigned()?),
        b'F' => Command::FindEdge(numbers.node()?, numbers.node()?),
        b'X' => Command::RemoveEdge(numbers.edge()?),
        b'D' => Command::RemoveNode(numbers.node()?),
        b'W' => Command::Neighbors(numbers.node()?),
        b'G' => Command::Edges(numbers.node()?),
        b'M' => Command::EdgesMut(numbers.node()?),
        b'B' => Command::EdgesBetween(numbers.node()?, numbers.node()?),
        b'A' => Command::Sum(numbers.node()?),
        b'S' => Command::Check,
        b'C' => Command::ClearEdges,
        b'Z' => Command::Clear,
        _ => return None,
    };
    numbers.rest.is_empty().then_some(command)
}

/// The part of a line after its letter that has not been read yet.
struct Numbers<'a> {
    rest: &'a [u8],
}

impl<'a> Numbers<'a> {
    fn node(&mut self) -> Option<NodeIndex> {
        self.unsigned().map(NodeIndex)
    }

    fn edge(&mut self) -> Option<EdgeIndex> {
        self.unsigned().map(EdgeIndex)
    }

    /// Any number but N's weight.
    fn unsigned(&mut self) -> Option<u32> {
        u32::try_from(digits(self.word()?)?).ok()
    }

    /// N's weight, the only number that may have a `-`.
    fn signed(&mut self) -> Option<i32> {
        let word = self.word()?;
        let value = match word.strip_prefix(b"-") {
            Some(rest) => -digits(rest)?,
            None => digits(word)?,
        };
        i32::try_from(value).ok()
    }

    /// The bytes after exactly one space, up to the next space or the end of the line.
    /// After a second space the word is empty, and so no number.
    fn word(&mut self) -> Option<&'a [u8]> {
        let rest = self.rest.strip_prefix(b" ")?;
        let end = rest.iter().position(|&byte| byte == b' ');
        let (word, rest) = rest.split_at(end.unwrap_or(rest.len()));
        self.rest = rest;
        Some(word)
    }
}

/// The value of 1 to 10 digits; leading zeros count as digits.
fn digits(word: &[u8]) -> Option<i64> {
    if word.is_empty() || word.len() > 10 {
        return None;
    }
    let mut value = 0;
    for byte in word {
        if !byte.is_ascii_digit() {
            return None;
        }
        value = 10 * value + i64::from(byte - b'0');
    }
    Some(value)
}
