//! Offcuts: which pieces are left over, in which order, with which sides, and which of them are
//! usable; the two lengths and their refusal (document 02, Two).

use crate::common::boards;
use crate::common::jobs::{job, job_a, job_with_leave, PLAN_A};
use crate::common::lent::{full_counts, holds, junk, Lent, COUNTS, CUTS, PLACEMENTS, PLATES};
use crate::common::refused;
use reference::{Mode, Unfolded};

/// Asserts the offcuts of a plan's unfolding with these lengths.
fn assert_left_over(words: &[u16], counts: &[u16], lengths: [u16; 2], expected: &[[u16; 6]]) {
    let mut lent = Lent::new();
    let unfolded = lent.unfold_with(words, counts, lengths).unwrap();
    assert_eq!(lent.left_over(), expected);
    assert_eq!(unfolded.offcuts as usize, expected.len());
}

#[test]
fn job_a_leaves_three_offcuts_of_which_two_reach_4_and_3() {
    let mut lent = Lent::new();
    let unfolded = Unfolded {
        boards: 2,
        pieces: 5,
        offcuts: 3,
    };
    let answer = lent.unfold_with(&job_a(), &PLAN_A, [4, 3]);
    assert_eq!(answer, Ok(unfolded));
    let offcuts = [[1, 6, 4, 3, 3, 0], [2, 5, 0, 4, 4, 1], [2, 0, 4, 9, 3, 1]];
    assert!(holds(&lent.offcuts, &offcuts.concat()));
}

#[test]
fn lengths_are_1_to_10_000() {
    let unfold = |lengths| Lent::new().unfold_with(&job_a(), &PLAN_A, lengths);
    for lengths in [[1, 1], [1, 10_000], [10_000, 1], [10_000, 10_000]] {
        assert!(unfold(lengths).is_ok(), "{lengths:?}");
    }
    for wrong in [0, 10_001, 65_535] {
        for lengths in [[wrong, 3], [3, wrong], [wrong, wrong], [wrong, 10_000]] {
            assert_eq!(unfold(lengths), refused(2, 0), "{lengths:?}");
        }
    }
}

#[test]
fn lengths_stand_after_the_jobs_words_and_before_the_job_row() {
    let unfold = |words: &[u16]| Lent::new().unfold_with(words, &PLAN_A, [0, 3]);
    assert_eq!(unfold(&job_a()), refused(2, 0));
    let without_demand = job(Mode::TwoNonExact, [9, 7], &[[5, 4, 0], [3, 3, 3]]);
    assert_eq!(unfold(&without_demand), refused(2, 1));
    assert_eq!(unfold(&job_a()[1..]), refused(1, 0));
    let too_wide = job(Mode::TwoNonExact, [9, 7], &[[10, 4, 2], [3, 3, 3]]);
    assert_eq!(unfold(&too_wide), refused(2, 0));
    let too_many = job(Mode::TwoNonExact, [9, 7], &[[5, 4, 4_000], [3, 3, 1]]);
    assert_eq!(unfold(&too_many), refused(2, 0));
}

#[test]
fn lengths_stand_before_the_buffers_and_empty_those_of_any_size() {
    let [mut plates, mut cuts] = [junk(PLATES), junk(CUTS - 1)];
    let [mut placements, mut offcuts] = [junk(5), junk(0)];
    let counts = full_counts(&PLAN_A);
    let answer = reference::unfold(
        &job_a(),
        &counts[..COUNTS - 1],
        [4, 10_001],
        &mut plates,
        &mut cuts,
        &mut placements,
        &mut offcuts,
    );
    assert_eq!(answer, refused(2, 0));
    for buffer in [&plates, &cuts, &placements, &offcuts] {
        assert!(holds(buffer, &[]));
    }
}

#[test]
fn short_offcuts_are_named_after_short_placements() {
    let unfold = |[placed, left_over]: [usize; 2]| {
        let [mut plates, mut cuts] = [junk(PLATES), junk(CUTS)];
        let [mut placements, mut offcuts] = [junk(placed), junk(left_over)];
        let counts = full_counts(&PLAN_A);
        let [lent, last] = [&mut placements, &mut offcuts];
        let answer = reference::unfold(
            &job_a(),
            &counts,
            [4, 3],
            &mut plates,
            &mut cuts,
            lent,
            last,
        );
        assert_eq!(answer.is_err(), offcuts == junk(left_over));
        answer.err().map(|refusal| [refusal.number, refusal.place])
    };
    assert_eq!(unfold([PLACEMENTS, 48_000]), None);
    assert_eq!(unfold([PLACEMENTS, 47_999]), Some([5, 5]));
    assert_eq!(unfold([PLACEMENTS, 0]), Some([5, 5]));
    assert_eq!(unfold([PLACEMENTS - 1, 47_999]), Some([5, 4]));
}

#[test]
fn a_side_that_equals_its_length_reaches_it() {
    let usable = |lengths| {
        let mut lent = Lent::new();
        lent.unfold_with(&job_a(), &PLAN_A, lengths).unwrap();
        lent.left_over().iter().map(|offcut| offcut[5]).collect()
    };
    let marks: [([u16; 2], [u16; 3]); 7] = [
        ([1, 1], [1, 1, 1]),
        ([3, 3], [1, 1, 1]),
        ([4, 4], [0, 1, 0]),
        ([9, 3], [0, 0, 1]),
        ([9, 4], [0, 0, 0]),
        ([10, 3], [0, 0, 0]),
        ([3, 9], [0, 0, 0]),
    ];
    for (lengths, expected) in marks {
        let found: Vec<u16> = usable(lengths);
        assert_eq!(found, expected, "{lengths:?}");
    }
}

#[test]
fn the_longest_sides_reach_the_longest_lengths() {
    let words = job(
        Mode::TwoExact,
        [10_000, 10_000],
        &[[10_000, 4_000, 1], [10_000, 6_000, 1]],
    );
    let above = |usable| {
        [
            [1, 0, 4_000, 10_000, 6_000, usable],
            [2, 0, 6_000, 10_000, 4_000, 0],
        ]
    };
    let counts = [1, 1];
    assert_left_over(&words, &counts, [10_000, 6_000], &above(1));
    assert_left_over(&words, &counts, [10_000, 6_001], &above(0));
}

#[test]
fn no_offcut_is_turned_to_reach_a_length() {
    let words = job_with_leave(Mode::TwoNonExact, [9, 7], &[[9, 4, 1, 1], [3, 3, 1, 1]]);
    let mut lent = Lent::new();
    assert_eq!(
        lent.fold(
            &words,
            &[[1, 0, 1, 1, 1, 1, 0, 0, 0], [2, 0, 1, 1, 1, 2, 0, 0, 0]]
        ),
        boards(2)
    );
    let counts = lent.counts.clone();
    let first_of = |lengths| {
        let mut lent = Lent::new();
        lent.unfold_with(&words, &counts, lengths).unwrap();
        lent.left_over()[0]
    };
    assert_eq!(first_of([9, 3]), [1, 0, 4, 9, 3, 1]);
    assert_eq!(first_of([3, 9]), [1, 0, 4, 9, 3, 0]);
}

#[test]
fn pieces_are_left_over_by_falling_stage() {
    let words = job(Mode::ThreeNonExact, [10, 10], &[[5, 5, 1], [2, 2, 1]]);
    let mut lent = Lent::new();
    assert_eq!(
        lent.fold(
            &words,
            &[[1, 0, 1, 1, 1, 1, 0, 0, 0], [1, 0, 1, 2, 1, 2, 5, 0, 0]]
        ),
        boards(1)
    );
    let counts = lent.counts.clone();
    let offcuts = [[1, 5, 2, 2, 3, 0], [1, 7, 0, 3, 5, 1], [1, 0, 5, 10, 5, 1]];
    assert_left_over(&words, &counts, [3, 3], &offcuts);
}

#[test]
fn an_offcut_has_the_sides_of_its_plate_type() {
    // In two stages what is left of a strip is as high as the item before it.
    let words = job(Mode::TwoNonExact, [10, 10], &[[4, 6, 1], [3, 3, 1]]);
    let mut lent = Lent::new();
    assert_eq!(
        lent.fold(
            &words,
            &[[1, 0, 1, 1, 1, 1, 0, 0, 0], [1, 0, 1, 2, 1, 2, 4, 0, 0]]
        ),
        boards(1)
    );
    let counts = lent.counts.clone();
    let offcuts = [[1, 7, 0, 3, 3, 1], [1, 0, 6, 10, 4, 1]];
    assert_left_over(&words, &counts, [1, 1], &offcuts);
    // In three stages what is left of a stack is as wide as the item below it.
    let words = job(
        Mode::ThreeNonExact,
        [10, 10],
        &[[4, 9, 1], [3, 3, 1], [2, 2, 1]],
    );
    let lines = [
        [1, 0, 1, 1, 1, 1, 0, 0, 0],
        [1, 0, 1, 2, 1, 2, 4, 0, 0],
        [1, 0, 1, 2, 2, 3, 4, 3, 0],
    ];
    assert_eq!(lent.fold(&words, &lines), boards(1));
    let counts = lent.counts.clone();
    let offcuts = [[1, 4, 5, 2, 4, 1], [1, 7, 0, 3, 9, 1]];
    assert_left_over(&words, &counts, [1, 1], &offcuts);
}

#[test]
fn nothing_is_left_over_of_an_item_as_large_as_the_board() {
    let words = job(Mode::TwoNonExact, [9, 7], &[[9, 7, 3]]);
    assert_left_over(&words, &[3], [1, 1], &[]);
}

#[test]
fn eight_thousand_offcuts_fill_the_buffer() {
    let words = job(Mode::TwoNonExact, [2, 2], &[[1, 1, 4_000]]);
    let mut lent = Lent::new();
    let unfolded = Unfolded {
        boards: 4_000,
        pieces: 4_000,
        offcuts: 8_000,
    };
    assert_eq!(
        lent.unfold_with(&words, &[4_000, 0, 0], [2, 1]),
        Ok(unfolded)
    );
    assert_eq!(lent.offcuts[..12], [1, 1, 0, 1, 1, 0, 1, 0, 1, 2, 1, 1]);
    let last = [4_000, 1, 0, 1, 1, 0, 4_000, 0, 1, 2, 1, 1];
    assert_eq!(lent.offcuts[47_988..], last);
}
