//! The area balance of boards: items, offcuts, waste and the blade's swath (document 02, Two,
//! Four and Six). The four make the board's own W times H.

use crate::job::Job;
use crate::listing::Listing;
use crate::swath::swath;
use crate::unfolding::Unfolding;
use crate::waste::waste;

/// The areas of items, of offcuts, of waste and of the blade's swath.
#[derive(Debug, Clone, Copy, PartialEq, Eq, Default)]
pub struct Balance {
    pub items: u64,
    pub offcuts: u64,
    pub waste: u64,
    pub swath: u64,
}

impl Balance {
    /// The four areas added up.
    pub fn whole(&self) -> u64 {
        self.items + self.offcuts + self.waste + self.swath
    }
}

/// The balance of each board of an unfolding: its items, the pieces left over on it, and the waste
/// and the swath of the cuts done on it.
pub fn of_boards(job: &Job, listing: &Listing, unfolding: &Unfolding) -> Vec<Balance> {
    let mut boards = vec![Balance::default(); unfolding.sizes.len()];
    for (placement, &index) in unfolding.placements.iter().zip(&unfolding.cuts) {
        let board = &mut boards[usize::from(placement.board) - 1];
        let cut = listing.cuts[index];
        let plate = &listing.plates[usize::from(cut.plate)];
        let item = job.sides(cut.position);
        board.items += u64::from(item.width) * u64::from(item.height);
        board.waste += waste(job, plate, item);
        board.swath += swath(job, plate, item);
    }
    for offcut in &unfolding.offcuts {
        let board = &mut boards[usize::from(offcut.board) - 1];
        board.offcuts += u64::from(offcut.width) * u64::from(offcut.height);
    }
    boards
}
