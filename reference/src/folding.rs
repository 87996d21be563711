//! Folding: from a set of layouts to the counts of a plan (document 01, "Layouts and folding",
//! second paragraph; document 02, Six).

use crate::job::Job;
use crate::layout::{leading_stack, Board, Strip};
use crate::listing::Listing;
use crate::position::Position;
use std::cmp::Reverse;

/// A strip in the order of folding. Two-stage: items by falling height. Three-stage: the items
/// of each stack by falling width, and the leftmost single-item stack of the strip's height
/// moved to the front. Items are measured as they lie. Equal
/// ones keep their order.
pub fn ordered(job: &Job, strip: &Strip) -> Strip {
    let mut strip = strip.clone();
    if job.mode.is_two_stage() {
        strip.sort_by_key(|stack| Reverse(job.sides(stack[0]).height));
        return strip;
    }
    for stack in &mut strip {
        stack.sort_by_key(|&item| Reverse(job.sides(item).width));
    }
    if let Some(leading) = leading_stack(job, &strip) {
        strip[..=leading].rotate_right(1);
    }
    strip
}

/// The counts of a set that keeps the layout rules: one for each cut of the listing.
pub fn fold(job: &Job, listing: &Listing, set: &[Board]) -> Vec<u16> {
    let mut counting = Counting {
        listing,
        counts: vec![0; listing.cuts.len()],
    };
    for board in set {
        let mut plate = Some(board.size);
        for strip in &board.strips {
            plate = counting.strip(plate, &ordered(job, strip));
        }
    }
    counting.counts
}

/// The counts of the cuts met so far.
struct Counting<'a> {
    listing: &'a Listing,
    counts: Vec<u16>,
}

impl Counting<'_> {
    /// Counts the cut of an item from a plate and gives its top and right.
    fn cut(&mut self, plate: Option<u16>, item: Position) -> (Option<u16>, Option<u16>) {
        let index = plate
            .and_then(|plate| self.listing.cut_of(plate, item))
            .expect("a layout that keeps the rules has a cut for each of its items");
        self.counts[index] += 1;
        let cut = self.listing.cuts[index];
        (cut.top, cut.right)
    }

    /// Counts the cuts of a strip in the order of folding and gives the plate above it. The
    /// first item of the strip is cut at stage 1, the first of each further stack at stage 2,
    /// the further items of a stack at stage 3.
    fn strip(&mut self, plate: Option<u16>, strip: &Strip) -> Option<u16> {
        let (above, mut beside) = self.cut(plate, strip[0][0]);
        for stack in &strip[1..] {
            let (mut on_top, right) = self.cut(beside, stack[0]);
            for &item in &stack[1..] {
                on_top = self.cut(on_top, item).0;
            }
            beside = right;
        }
        above
    }
}
