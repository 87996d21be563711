//! An item in a position: the thing that is cut, laid and folded. Demands and prices speak of its
//! type alone (document 02, One).

/// An item type, from 1, and whether it is turned by 90 degrees. The order is that of the walk:
/// by type, the unturned first.
#[derive(Debug, Clone, Copy, PartialEq, Eq, PartialOrd, Ord, Hash)]
pub struct Position {
    pub item: u16,
    pub turned: bool,
}

/// The sides of an item as it lies.
#[derive(Debug, Clone, Copy, PartialEq, Eq)]
pub struct Sides {
    pub width: u16,
    pub height: u16,
}

impl Sides {
    /// Width times height.
    pub fn area(&self) -> u64 {
        u64::from(self.width) * u64::from(self.height)
    }
}

impl Position {
    /// The type as it stands in the job.
    pub fn unturned(item: u16) -> Position {
        Position {
            item,
            turned: false,
        }
    }

    /// The type turned.
    pub fn turned(item: u16) -> Position {
        Position { item, turned: true }
    }

    /// The turn as a number: 1 if turned, else 0.
    pub fn turn(self) -> u16 {
        u16::from(self.turned)
    }

    /// The item word of a cut's record: twice the type plus the turn.
    pub fn word(self) -> u16 {
        2 * self.item + self.turn()
    }
}
