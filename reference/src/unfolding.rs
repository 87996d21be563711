//! Unfolding: from the counts of a plan to the items' places on boards (document 01, "Unfolding"),
//! and to the pieces left over (document 02, Two); residuals lie beyond the blade (Four), and boards are
//! opened size by size (Six).

use crate::job::Job;
use crate::layout::Placement;
use crate::listing::Listing;
use crate::offcut::Offcut;

/// The placements of an unfolding, each with the index (from 0) of the cut that it is from, the
/// pieces left over in their order, the size of each board opened, and the counts that were not
/// spent.
#[derive(Debug, Clone, PartialEq, Eq)]
pub struct Unfolding {
    pub placements: Vec<Placement>,
    pub cuts: Vec<usize>,
    pub offcuts: Vec<Offcut>,
    pub sizes: Vec<u16>,
    pub left: Vec<u16>,
}

/// A piece of plate that waits, with the position of its lower left corner.
#[derive(Debug, Clone, Copy)]
struct Piece {
    plate: u16,
    x: u16,
    y: u16,
}

impl Piece {
    /// The piece as an offcut of a board.
    fn left_over(&self, listing: &Listing, board: u16) -> Offcut {
        let sides = listing.plates[usize::from(self.plate)];
        Offcut {
            board,
            x: self.x,
            y: self.y,
            plate: self.plate,
            width: sides.width,
            height: sides.height,
        }
    }
}

/// The pieces waiting: at most one of each stage.
struct Waiting {
    by_stage: [Option<Piece>; 3],
}

impl Waiting {
    /// A board of a size just opened: one piece of the size's plate type, and nothing else.
    fn board(size: u16) -> Waiting {
        let whole = Piece {
            plate: size,
            x: 0,
            y: 0,
        };
        Waiting {
            by_stage: [Some(whole), None, None],
        }
    }

    /// Takes the piece of the highest stage.
    fn take_highest(&mut self) -> Option<Piece> {
        self.by_stage.iter_mut().rev().find_map(Option::take)
    }

    /// Lets a kept residual wait at its position.
    fn put(&mut self, listing: &Listing, residual: Option<u16>, x: u16, y: u16) {
        if let Some(plate) = residual {
            let stage = usize::from(listing.plates[usize::from(plate)].stage);
            self.by_stage[stage - 1] = Some(Piece { plate, x, y });
        }
    }
}

/// Board with its size, strip, stack and place of the item laid last.
#[derive(Debug, Clone, Copy)]
struct Turn {
    board: u16,
    size: u16,
    strip: u16,
    stack: u16,
    place: u16,
}

impl Turn {
    /// A cut at stage 1 begins a strip, one at stage 2 a stack, one at stage 3 takes the next
    /// place of its stack.
    fn advance(&mut self, stage: u16) {
        match stage {
            1 => (self.strip, self.stack, self.place) = (self.strip + 1, 1, 1),
            2 => (self.stack, self.place) = (self.stack + 1, 1),
            _ => self.place += 1,
        }
    }
}

/// Unfolds an accepted plan: size by size in rising number, opens boards of the size one after another
/// until the counts on it are spent.
pub fn unfold(job: &Job, listing: &Listing, counts: &[u16]) -> Unfolding {
    let mut unfolding = Unfolding {
        placements: Vec::new(),
        cuts: Vec::new(),
        offcuts: Vec::new(),
        sizes: Vec::new(),
        left: counts.to_vec(),
    };
    for size in 0..listing.sizes as u16 {
        while lowest_left(listing, &unfolding.left, size).is_some() {
            unfolding.sizes.push(size);
            unfold_board(job, listing, size, &mut unfolding);
        }
    }
    unfolding
}

/// Cuts up one board of a size: the piece of the highest stage is taken until nothing waits; the lowest
/// cut on its type with a count left is done, and without one the piece is left over, an offcut.
fn unfold_board(job: &Job, listing: &Listing, size: u16, unfolding: &mut Unfolding) {
    let mut turn = Turn {
        board: unfolding.sizes.len() as u16,
        size,
        strip: 0,
        stack: 0,
        place: 0,
    };
    let mut waiting = Waiting::board(size);
    while let Some(piece) = waiting.take_highest() {
        let Some(index) = lowest_left(listing, &unfolding.left, piece.plate) else {
            unfolding.offcuts.push(piece.left_over(listing, turn.board));
            continue;
        };
        unfolding.left[index] -= 1;
        unfolding.cuts.push(index);
        let cut = listing.cuts[index];
        turn.advance(listing.plates[usize::from(piece.plate)].stage);
        unfolding.placements.push(Placement {
            board: turn.board,
            size: turn.size,
            strip: turn.strip,
            stack: turn.stack,
            place: turn.place,
            position: cut.position,
            x: piece.x,
            y: piece.y,
        });
        let item = job.sides(cut.position);
        let above = piece.y + item.height + job.blade;
        let beside = piece.x + item.width + job.blade;
        waiting.put(listing, cut.top, piece.x, above);
        waiting.put(listing, cut.right, beside, piece.y);
    }
}

/// The index of the lowest-numbered cut on a plate type that has a count left.
fn lowest_left(listing: &Listing, left: &[u16], plate: u16) -> Option<usize> {
    listing.cuts_on(plate).find(|&index| left[index] > 0)
}
