//! Only the plate's own cuts (document 02, Seven): a plate type's part has every cut on it and no other,
//! and the unfolding found in the parts is the one found by reading all cuts for each piece.

use crate::common::jobs::{job_on_sizes, random_job, random_large_job};
use crate::common::plans::random_plan;
use crate::common::random::Random;
use reference::listing::FULL;
use reference::offcut::Offcut;
use reference::unfolding::{unfold, Unfolding};
use reference::{Job, Listing, Mode, Placement, Position};

/// The lowest cut on a plate type with a count left, of all cuts.
fn lowest_of_all(listing: &Listing, left: &[u16], plate: u16) -> Option<usize> {
    (0..left.len()).find(|&cut| listing.cuts[cut].plate == plate && left[cut] > 0)
}

/// Plate type, x and y of a piece.
type Piece = (u16, u16, u16);

/// A board that is cut up, each cut found by reading all.
struct Cutting<'a> {
    job: &'a Job,
    listing: &'a Listing,
    board: u16,
    size: u16,
    /// Strip, stack and place of the item placed last.
    turn: [u16; 3],
    /// The pieces of stages 1, 2 and 3 that wait.
    waiting: [Option<Piece>; 3],
}

impl Cutting<'_> {
    /// The board, until nothing waits.
    fn cut_up(mut self, so_far: &mut Unfolding) {
        while let Some(stage) = (0..3).rev().find(|&stage| self.waiting[stage].is_some()) {
            let piece = self.waiting[stage].take().unwrap();
            match lowest_of_all(self.listing, &so_far.left, piece.0) {
                None => so_far.offcuts.push(self.left_over(piece)),
                Some(cut) => self.cut(stage, piece, cut, so_far),
            }
        }
    }

    /// A piece that no cut is left for.
    fn left_over(&self, (plate, x, y): Piece) -> Offcut {
        let sides = self.listing.plates[usize::from(plate)];
        Offcut {
            board: self.board,
            x,
            y,
            plate,
            width: sides.width,
            height: sides.height,
        }
    }

    /// A cut, by its index, on a piece of a stage.
    fn cut(&mut self, stage: usize, (_, x, y): Piece, index: usize, so_far: &mut Unfolding) {
        so_far.left[index] -= 1;
        so_far.cuts.push(index);
        self.turn[stage] += 1;
        self.turn[stage + 1..].fill(1);
        let cut = self.listing.cuts[index];
        let item = self.job.sides(cut.position);
        so_far.placements.push(self.placed(cut.position, x, y));
        self.wait(cut.top, x, y + item.height + self.job.blade);
        self.wait(cut.right, x + item.width + self.job.blade, y);
    }

    /// An item that lies at (x, y), where it comes in turn.
    fn placed(&self, position: Position, x: u16, y: u16) -> Placement {
        let [strip, stack, place] = self.turn;
        Placement {
            board: self.board,
            size: self.size,
            strip,
            stack,
            place,
            position,
            x,
            y,
        }
    }

    /// A kept residual waits in the place of its stage.
    fn wait(&mut self, residual: Option<u16>, x: u16, y: u16) {
        if let Some(plate) = residual {
            let stage = usize::from(self.listing.plates[usize::from(plate)].stage);
            self.waiting[stage - 1] = Some((plate, x, y));
        }
    }
}

/// The unfolding of a plan, each cut found by reading all.
fn unfold_by_reading_all(job: &Job, listing: &Listing, counts: &[u16]) -> Unfolding {
    let mut unfolding = Unfolding {
        placements: Vec::new(),
        cuts: Vec::new(),
        offcuts: Vec::new(),
        sizes: Vec::new(),
        left: counts.to_vec(),
    };
    for size in 0..job.sizes.len() as u16 {
        while lowest_of_all(listing, &unfolding.left, size).is_some() {
            unfolding.sizes.push(size);
            let cutting = Cutting {
                job,
                listing,
                board: unfolding.sizes.len() as u16,
                size,
                turn: [0; 3],
                waiting: [Some((size, 0, 0)), None, None],
            };
            cutting.cut_up(&mut unfolding);
        }
    }
    unfolding
}

/// The indices of each plate type's part.
fn parts(listing: &Listing) -> Vec<Vec<usize>> {
    let plates = 0..listing.plates.len() as u16;
    plates
        .map(|plate| listing.cuts_on(plate).collect())
        .collect()
}

/// Every cut on the type and no other.
fn assert_own(listing: &Listing) {
    for (plate, part) in parts(listing).iter().enumerate() {
        let on = |&cut: &usize| usize::from(listing.cuts[cut].plate) == plate;
        let own: Vec<usize> = (0..listing.cuts.len()).filter(on).collect();
        assert_eq!(*part, own);
    }
}

fn listing_of(words: &[u16]) -> Listing {
    Listing::walk(&Job::from_words(words).unwrap(), FULL).unwrap()
}

#[test]
fn a_size_without_a_cut_has_an_empty_part() {
    let items = [[5, 4, 2], [3, 3, 3]];
    let job = |sizes: &[[u16; 3]]| job_on_sizes(Mode::TwoNonExact, sizes, &items);
    let [small, board] = [[2, 2, 1], [9, 7, 1]];
    let first = listing_of(&job(&[small, board]));
    let expected: [&[usize]; 7] = [&[], &[0, 1], &[2], &[3], &[4, 5], &[6], &[7]];
    assert_eq!(parts(&first), expected);
    let between = listing_of(&job(&[board, small, board]));
    let expected: [&[usize]; 8] = [&[0, 1], &[], &[2, 3], &[4], &[5], &[6, 7], &[8], &[9]];
    assert_eq!(parts(&between), expected);
}

#[test]
fn unfolding_by_parts_is_unfolding_by_reading_all() {
    let mut random = Random::new(71);
    let [mut empty, mut several, mut over] = [0; 3];
    for _ in 0..20_000 {
        let job = random_job(&mut random);
        let listing = Listing::walk(&job, FULL).unwrap();
        assert_own(&listing);
        empty += usize::from(parts(&listing).iter().any(Vec::is_empty));
        let counts = random_plan(&mut random, &job, &listing);
        let by_parts = unfold(&job, &listing, &counts);
        assert_eq!(by_parts, unfold_by_reading_all(&job, &listing, &counts));
        several += usize::from(by_parts.sizes.first() != by_parts.sizes.last());
        over += by_parts.offcuts.len();
    }
    assert!(empty > 1_000, "{empty} jobs have a size without a cut");
    assert!(several > 1_000 && over > 10_000, "{several}, {over}");
}

#[test]
fn the_same_of_large_jobs() {
    let mut random = Random::new(72);
    for round in 0..40 {
        let job = random_large_job(&mut random, Mode::ALL[round % 4]);
        let listing = Listing::walk(&job, FULL).unwrap();
        assert_own(&listing);
        let counts = random_plan(&mut random, &job, &listing);
        let by_parts = unfold(&job, &listing, &counts);
        assert_eq!(by_parts, unfold_by_reading_all(&job, &listing, &counts));
    }
}
