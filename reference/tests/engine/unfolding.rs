//! Unfolding: which piece is taken, which cut is done, where the residuals lie (document 01,
//! "Unfolding").

use crate::common::boards;
use crate::common::jobs::{job, job_a};
use crate::common::lent::Lent;
use reference::listing::FULL;
use reference::unfolding::unfold;
use reference::{Job, Listing, Mode};

/// Asserts the lines of a plan's unfolding.
fn assert_lines(words: &[u16], counts: &[u16], lines: &[[u16; 9]]) {
    let mut lent = Lent::new();
    let unfolded = lent.unfold(words, counts).unwrap();
    assert_eq!(lent.lines(), lines);
    assert_eq!(unfolded.pieces as usize, lines.len());
    let boards = lines.last().map_or(0, |line| line[0]);
    assert_eq!(unfolded.boards, u32::from(boards));
}

#[test]
fn the_lowest_cut_with_a_count_left_is_done() {
    let lines = [
        [1, 0, 1, 1, 1, 1, 0, 0, 0],
        [2, 0, 1, 1, 1, 1, 0, 0, 0],
        [3, 0, 1, 1, 1, 2, 0, 0, 0],
        [4, 0, 1, 1, 1, 2, 0, 0, 0],
        [5, 0, 1, 1, 1, 2, 0, 0, 0],
    ];
    assert_lines(&job_a(), &[2, 3, 0, 0, 0, 0, 0, 0], &lines);
}

#[test]
fn a_piece_without_a_count_is_left_over_and_does_not_wait_on() {
    // On board 1 the right plate is cut up; on board 2 it is left over, and the strip above it
    // is empty too.
    let lines = [
        [1, 0, 1, 1, 1, 1, 0, 0, 0],
        [1, 0, 1, 2, 1, 2, 5, 0, 0],
        [1, 0, 2, 1, 1, 2, 0, 4, 0],
        [1, 0, 2, 2, 1, 2, 3, 4, 0],
        [2, 0, 1, 1, 1, 1, 0, 0, 0],
    ];
    assert_lines(&job_a(), &[2, 0, 1, 1, 0, 0, 1, 0], &lines);
}

#[test]
fn the_highest_stage_is_taken_first() {
    // The stack on the right is finished before the stack after it, and that before the strip.
    let words = job(Mode::ThreeNonExact, [4, 3], &[[2, 2, 1], [1, 1, 1]]);
    let structured = Job::from_words(&words).unwrap();
    let listing = Listing::walk(&structured, FULL).unwrap();
    let lines = [
        [1, 0, 1, 1, 1, 1, 0, 0, 0],
        [1, 0, 1, 2, 1, 2, 2, 0, 0],
        [1, 0, 1, 2, 2, 2, 2, 1, 0],
        [1, 0, 1, 3, 1, 2, 3, 0, 0],
        [1, 0, 1, 3, 2, 2, 3, 1, 0],
        [1, 0, 2, 1, 1, 2, 0, 2, 0],
        [1, 0, 2, 2, 1, 2, 1, 2, 0],
    ];
    let mut lent = Lent::new();
    assert_eq!(lent.fold(&words, &lines), boards(1));
    let counts = lent.counts[..listing.cuts.len()].to_vec();
    assert_lines(&words, &counts, &lines);
}

#[test]
fn residuals_lie_above_and_beside_the_item() {
    // The right plate of a strip begins at the item's edge and at its foot, the top plate of a
    // stack at the item's own x.
    let words = job(
        Mode::ThreeNonExact,
        [10, 10],
        &[[4, 7, 1], [3, 2, 1], [2, 3, 1]],
    );
    let lines = [
        [1, 0, 1, 1, 1, 1, 0, 0, 0],
        [1, 0, 1, 2, 1, 2, 4, 0, 0],
        [1, 0, 1, 2, 2, 3, 4, 2, 0],
        [1, 0, 1, 3, 1, 3, 7, 0, 0],
        [1, 0, 1, 3, 2, 3, 7, 3, 0],
        [1, 0, 2, 1, 1, 3, 0, 7, 0],
        [1, 0, 2, 2, 1, 2, 2, 7, 0],
    ];
    let mut lent = Lent::new();
    assert_eq!(lent.fold(&words, &lines), boards(1));
    let counts = lent.counts.clone();
    assert_lines(&words, &counts, &lines);
}

#[test]
fn in_two_stages_place_is_always_1() {
    let words = job(Mode::TwoNonExact, [5, 5], &[[2, 2, 4], [1, 1, 4]]);
    let lines = [
        [1, 0, 1, 1, 1, 1, 0, 0, 0],
        [1, 0, 1, 2, 1, 1, 2, 0, 0],
        [1, 0, 1, 3, 1, 2, 4, 0, 0],
        [1, 0, 2, 1, 1, 1, 0, 2, 0],
        [1, 0, 2, 2, 1, 1, 2, 2, 0],
        [1, 0, 2, 3, 1, 2, 4, 2, 0],
        [1, 0, 3, 1, 1, 2, 0, 4, 0],
        [1, 0, 3, 2, 1, 2, 1, 4, 0],
    ];
    let mut lent = Lent::new();
    assert_eq!(lent.fold(&words, &lines), boards(1));
    let counts = lent.counts.clone();
    assert_lines(&words, &counts, &lines);
}

#[test]
fn the_structured_unfolding_spends_every_count() {
    let structured = Job::from_words(&job_a()).unwrap();
    let listing = Listing::walk(&structured, FULL).unwrap();
    let unfolding = unfold(&structured, &listing, &[2, 0, 1, 1, 0, 0, 1, 0]);
    assert_eq!(
        (unfolding.sizes, unfolding.placements.len()),
        (vec![0, 0], 5)
    );
    assert_eq!(unfolding.left, [0; 8]);
}

#[test]
fn four_thousand_pieces_fill_the_placements() {
    let words = job(
        Mode::TwoNonExact,
        [10_000, 1],
        &[[9_999, 1, 3_999], [10_000, 1, 1]],
    );
    let mut lent = Lent::new();
    let unfolded = lent.unfold(&words, &[3_999, 1]).unwrap();
    assert_eq!((unfolded.boards, unfolded.pieces), (4_000, 4_000));
    assert_eq!(lent.placements[35_991..], [4_000, 0, 1, 1, 1, 2, 0, 0, 0]);
}
