//! Offcuts: the pieces that unfolding leaves over, and the two lengths from which one is usable
//! (document 02, Two).

use crate::limits::LENGTH;
use crate::refusal::{ensure, Refusal, OUTSIDE_LIMITS};

/// Words of an offcut.
pub const OFFCUT_NUMBERS: usize = 6;

/// The two set lengths: what the width and what the height of an offcut has to reach.
#[derive(Debug, Clone, Copy, PartialEq, Eq)]
pub struct Lengths {
    first: u16,
    second: u16,
}

impl Lengths {
    /// The lengths of two words, if each is within its limits; else 2, place 0.
    pub fn from_words([first, second]: [u16; 2]) -> Result<Lengths, Refusal> {
        let within = [first, second].map(|length| LENGTH.contains(&u32::from(length)));
        ensure(within == [true, true], OUTSIDE_LIMITS, 0)?;
        Ok(Lengths { first, second })
    }
}

/// A piece left over: its board, the position of its lower left corner, its plate type, and the
/// sides of that type.
#[derive(Debug, Clone, Copy, PartialEq, Eq)]
pub struct Offcut {
    pub board: u16,
    pub x: u16,
    pub y: u16,
    pub plate: u16,
    pub width: u16,
    pub height: u16,
}

impl Offcut {
    /// Whether the width reaches the first length and the height the second. An offcut is not
    /// turned.
    pub fn is_usable(&self, lengths: Lengths) -> bool {
        self.width >= lengths.first && self.height >= lengths.second
    }

    /// The six words of an offcut: board, x, y, width, height, and 1 if it is usable, else 0.
    pub fn words(&self, lengths: Lengths) -> [u16; OFFCUT_NUMBERS] {
        let usable = u16::from(self.is_usable(lengths));
        let [board, x, y] = [self.board, self.x, self.y];
        [board, x, y, self.width, self.height, usable]
    }
}
