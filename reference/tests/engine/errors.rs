//! The errors that document 01 names to be shut out ("Cases"), and other wrong readings that its
//! own cases would not notice.

use crate::common::boards;
use crate::common::jobs::{job, job_a};
use crate::common::lent::Lent;
use crate::common::refused;
use crate::common::texts::{assert_text, job_text, lines};
use reference::{saw_text, Listed, Mode};

#[test]
fn counts_are_not_spent_plate_type_by_plate_type() {
    // Plate 2 arises on board 1 from type 0 and on board 2 from type 3, which has a higher
    // number: spent in rising number, one count on plate 2 would be left.
    let mut lent = Lent::new();
    lent.unfold(&job_a(), &[1, 1, 0, 2, 1, 0, 0, 0]).unwrap();
    let lines = [
        [1, 0, 1, 1, 1, 1, 0, 0, 0],
        [1, 0, 1, 2, 1, 2, 5, 0, 0],
        [2, 0, 1, 1, 1, 2, 0, 0, 0],
        [2, 0, 2, 1, 1, 1, 0, 3, 0],
        [2, 0, 2, 2, 1, 2, 5, 3, 0],
    ];
    assert_eq!(lent.lines(), lines);
}

#[test]
fn a_two_stage_right_plate_has_not_the_strips_height() {
    // After the low item 2 the high item 1 cannot follow: plate 4, (2, 4, 2), does not arise.
    let words = job(Mode::TwoNonExact, [6, 4], &[[2, 4, 1], [2, 2, 1]]);
    let counts = [1, 0, 0, 1, 0, 0, 1, 0, 0];
    assert_eq!(Lent::new().test_plan(&words, &counts), refused(12, 4));
    let counts = [1, 0, 0, 1, 0, 0, 0, 0, 1];
    assert_eq!(Lent::new().test_plan(&words, &counts), boards(1));
}

#[test]
fn a_plate_that_no_item_fits_is_not_kept() {
    for mode in Mode::ALL {
        let words = job(mode, [3, 3], &[[2, 2, 1]]);
        let listed = Listed {
            residuals: 0,
            cuts: 1,
        };
        assert_eq!(Lent::new().list(&words), Ok(listed));
    }
}

#[test]
fn a_price_rule_on_a_residual_is_not_at_most_d() {
    let prices = [100, 0, 2, 50, 1, 0, 0, 0];
    assert_eq!(Lent::new().test_prices(&job_a(), &prices), refused(14, 4));
}

/// Boards of 3 by 1 for so many items of 1 by 1 at 1 over 3: the plan's counts and the line of
/// kind 8 that follows from them.
fn assert_cheapest(demand: u16, counts: [u32; 3], last: [u32; 5]) {
    let words = job(Mode::TwoNonExact, [3, 1], &[[1, 1, demand]]);
    let mut text = job_text(&words);
    for ((plate, count), stage) in (0..).zip(counts).zip([1, 2, 2]) {
        text.extend(lines(&[&[3, plate, 1, count, 3 - plate, 1, stage, 0]]));
    }
    text.extend(lines(&[&[4, 3, 1, 2], &[5, 1, 1], &[6, 1, 2], &[6, 2, 1]]));
    let output = saw_text(&text);
    assert_text(&output[output.len() - 46..], &lines(&[&last]));
}

#[test]
fn a_bound_is_not_rounded_down_before_it_is_compared() {
    // 7 over 3 is more than 2, so that a cost of 3, of as many boards, is the cheapest; 6 over 3 is 2.
    assert_cheapest(7, [3, 2, 2], [8, 3, 7, 3, 1]);
    assert_cheapest(6, [3, 2, 1], [8, 3, 6, 3, 0]);
    assert_cheapest(6, [2, 2, 2], [8, 2, 6, 3, 1]);
}

#[test]
fn a_three_stage_stack_narrows_upwards() {
    // On the item of 2 by 2 only the width 2 is left, so that the item of 3 by 2 cannot follow.
    let words = job(
        Mode::ThreeNonExact,
        [4, 6],
        &[[1, 6, 1], [3, 2, 1], [2, 2, 1]],
    );
    let mut counts = [0; 20];
    counts[0] = 1;
    counts[5] = 1;
    counts[11] = 1;
    assert_eq!(Lent::new().test_plan(&words, &counts), refused(12, 5));
    let mut counts = [0; 20];
    counts[0] = 1;
    counts[4] = 1;
    counts[12] = 1;
    assert_eq!(Lent::new().test_plan(&words, &counts), boards(1));
}

#[test]
fn a_three_exact_stack_has_one_width_and_a_strip_many() {
    // The stack beside the post: 3 by 2 twice; a second strip of 2 by 2 twice, beside each other.
    let words = job(Mode::ThreeExact, [4, 8], &[[1, 6, 1], [3, 2, 1], [2, 2, 1]]);
    let lines = [
        [1, 0, 1, 1, 1, 1, 0, 0, 0],
        [1, 0, 1, 2, 1, 2, 1, 0, 0],
        [1, 0, 1, 2, 2, 2, 1, 2, 0],
        [1, 0, 1, 2, 3, 2, 1, 4, 0],
        [1, 0, 2, 1, 1, 3, 0, 6, 0],
        [1, 0, 2, 2, 1, 3, 2, 6, 0],
    ];
    let mut lent = Lent::new();
    assert_eq!(lent.fold(&words, &lines), boards(1));
    let counts = lent.counts.clone();
    assert_eq!(lent.test_plan(&words, &counts), boards(1));
    let mut two_widths = lines;
    two_widths[3] = [1, 0, 1, 2, 3, 3, 1, 4, 0];
    assert_eq!(lent.fold(&words, &two_widths), refused(16, 1));
    let non_exact = job(
        Mode::ThreeNonExact,
        [4, 8],
        &[[1, 6, 1], [3, 2, 1], [2, 2, 1]],
    );
    assert_eq!(lent.fold(&non_exact, &two_widths), boards(1));
}

#[test]
fn an_item_without_leave_is_cut_turned_from_no_plate() {
    // The right plate (2, 3, 2) would hold item 2, 3 by 2, only if it were turned.
    let words = job(Mode::TwoNonExact, [6, 3], &[[4, 3, 1], [3, 2, 1]]);
    let mut lent = Lent::new();
    lent.list(&words).unwrap();
    assert_eq!(lent.cuts[..4], [0, 2, 0, 0]);
}
