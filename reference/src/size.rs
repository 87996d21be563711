//! Board sizes: the sides and the cost of the boards that a shop stocks (document 02, Six).

use crate::limits::{COST, SIDE};
use crate::plate::Plate;
use crate::position::Sides;

/// Numbers of a size: those of line 10 after the size's number, and its words.
pub const SIZE_NUMBERS: usize = 3;

/// A board size: its sides, and what a board of it costs. Stock is unlimited.
#[derive(Debug, Clone, Copy, PartialEq, Eq)]
pub struct Size {
    pub width: u16,
    pub height: u16,
    pub cost: u16,
}

impl Size {
    /// The size of these three numbers, if each is within its limits.
    pub fn from_numbers([width, height, cost]: [u32; SIZE_NUMBERS]) -> Option<Size> {
        let within = SIDE.contains(&width) && SIDE.contains(&height) && COST.contains(&cost);
        within.then_some(Size {
            width: width as u16,
            height: height as u16,
            cost: cost as u16,
        })
    }

    /// The three words of a size.
    pub fn words(&self) -> [u16; SIZE_NUMBERS] {
        [self.width, self.height, self.cost]
    }

    /// Whether an item that lies with these sides is no larger than the size.
    pub fn fits(&self, item: Sides) -> bool {
        item.width <= self.width && item.height <= self.height
    }

    /// The size as a plate type: the whole board, at stage 1.
    pub fn plate(&self) -> Plate {
        Plate {
            width: self.width,
            height: self.height,
            stage: 1,
        }
    }

    /// Width times height.
    pub fn area(&self) -> u64 {
        self.plate().area()
    }
}
