//! Why a call is refused.

use std::error::Error;
use std::fmt;

/// Why a call is refused, by the order's numbers.
#[derive(Clone, Copy, Debug, PartialEq, Eq)]
pub enum Refusal {
    /// Rows above the limit, counts above the rows, or tables that disagree in rows.
    Tables = 1,
    /// No row for one more; image counts above the rows.
    Full = 2,
    /// The named node is not there.
    NoNode = 3,
    /// The named edge is not there.
    NoEdge = 4,
    /// Nothing found; the end of a list; a walker at its end; a register number that no row bears.
    Nothing = 5,
    /// Broken links; an entry of the directory that is not the row's.
    Broken = 6,
    /// The output holds fewer items than the answer needs.
    Short = 7,
    /// An image that is too short, has a wrong mark or a wrong length.
    NotImage = 8,
    /// An image of an unknown version.
    Version = 9,
    /// A script line that is no command.
    NotCommand = 10,
    /// The directory's entry of that register number names a row.
    Taken = 11,
    /// A register number that is not below the directory's length.
    Beyond = 12,
    /// A node to be dropped that still has edges; no call gives this or those below yet.
    NotBare = 13,
    /// Lists that no ranking of the edges gives.
    NoRanking = 14,
    /// Outside the planning profile.
    Outside = 15,
    /// A walk that would stand 65 nodes deep.
    TooDeep = 16,
    /// A counter lower than the last.
    Fell = 17,
    /// A weight that would leave 32 bits.
    Overflow = 18,
}

impl Refusal {
    const ALL: [Refusal; 18] = [
        Refusal::Tables,
        Refusal::Full,
        Refusal::NoNode,
        Refusal::NoEdge,
        Refusal::Nothing,
        Refusal::Broken,
        Refusal::Short,
        Refusal::NotImage,
        Refusal::Version,
        Refusal::NotCommand,
        Refusal::Taken,
        Refusal::Beyond,
        Refusal::NotBare,
        Refusal::NoRanking,
        Refusal::Outside,
        Refusal::TooDeep,
        Refusal::Fell,
        Refusal::Overflow,
    ];

    /// The order's number.
    pub fn number(self) -> u32 {
        self as u32
    }

    /// What a call answered: 0 is served, every other number a refusal.
    pub(crate) fn of(answer: u32) -> Result<(), Refusal> {
        match answer {
            0 => Ok(()),
            _ => Err(Refusal::ALL[answer as usize - 1]),
        }
    }
}

impl fmt::Display for Refusal {
    fn fmt(&self, f: &mut fmt::Formatter<'_>) -> fmt::Result {
        let why = match self {
            Refusal::Tables => "the tables do not fit",
            Refusal::Full => "no row for one more",
            Refusal::NoNode => "no such node",
            Refusal::NoEdge => "no such edge",
            Refusal::Nothing => "nothing found",
            Refusal::Broken => "broken links",
            Refusal::Short => "the output is too short",
            Refusal::NotImage => "no image of a network",
            Refusal::Version => "an image of an unknown version",
            Refusal::NotCommand => "a line that is no command",
            Refusal::Taken => "the register number is taken",
            Refusal::Beyond => "the register number is beyond the directory",
            Refusal::NotBare => "the node still has edges",
            Refusal::NoRanking => "no ranking gives these lists",
            Refusal::Outside => "outside the planning profile",
            Refusal::TooDeep => "more than 64 nodes deep",
            Refusal::Fell => "the counter fell",
            Refusal::Overflow => "the weight would leave 32 bits",
        };
        write!(f, "refused {}: {why}", self.number())
    }
}

impl Error for Refusal {}
