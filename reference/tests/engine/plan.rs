//! Plans as words: lengths, sums and the exactness of acceptance (document 01, "Plan").

use crate::common::boards;
use crate::common::jobs::{job, job_a, random_job, words_of, PLAN_A};
use crate::common::lent::{full_counts, junk, Lent, COUNTS, CUTS, PLATES};
use crate::common::plain;
use crate::common::random::Random;
use crate::common::refused;
use reference::Mode;

#[test]
fn counts_are_passed_at_full_size_or_longer() {
    let [mut plates, mut cuts] = [junk(PLATES), junk(CUTS)];
    let mut counts = full_counts(&PLAN_A);
    counts.pop();
    let answer = reference::test_plan(&job_a(), &counts, &mut plates, &mut cuts);
    assert_eq!(answer, refused(5, 3));
    let answer = reference::test_plan(&job_a(), &PLAN_A, &mut plates, &mut cuts);
    assert_eq!(answer, refused(5, 3));
    counts.extend([0; 70_000]);
    let answer = reference::test_plan(&job_a(), &counts, &mut plates, &mut cuts);
    assert_eq!(answer, boards(2));
}

#[test]
fn a_word_past_the_last_cut_is_8_also_past_the_full_size() {
    for index in [8, 9, 100, COUNTS - 1, COUNTS, 70_000] {
        let mut counts = full_counts(&PLAN_A);
        counts.resize(70_001, 0);
        counts[index] = 1;
        let place = index as u32 + 1;
        assert_eq!(Lent::new().test_plan(&job_a(), &counts), refused(8, place));
        assert_eq!(Lent::new().unfold(&job_a(), &counts), refused(8, place));
    }
}

#[test]
fn a_single_count_above_4_000_is_10() {
    for count in [4_001, 9_999, 65_535] {
        let counts = [count, 0, 0, 0, 0, 0, 0, 0];
        assert_eq!(Lent::new().test_plan(&job_a(), &counts), refused(10, 0));
    }
}

#[test]
fn the_total_is_not_taken_modulo_a_word() {
    let counts = [65_535, 1, 1, 1, 0, 0, 1, 0];
    assert_eq!(Lent::new().test_plan(&job_a(), &counts), refused(10, 0));
    // The largest total: 8,192 counts of 65,535.
    let items = vec![[1, 1, 1]; 4];
    let words = job(Mode::TwoNonExact, [1_024, 1_025], &items);
    let counts = vec![65_535; COUNTS];
    assert_eq!(Lent::new().test_plan(&words, &counts), refused(10, 0));
}

#[test]
fn more_than_the_demand_is_accepted() {
    let counts = [7, 0, 7, 7, 0, 0, 7, 7];
    assert_eq!(Lent::new().test_plan(&job_a(), &counts), boards(7));
}

#[test]
fn type_0_has_no_supply_rule() {
    let counts = [2, 3, 0, 0, 0, 0, 0, 0];
    assert_eq!(Lent::new().test_plan(&job_a(), &counts), boards(5));
}

#[test]
fn the_lowest_short_type_and_the_lowest_overdrawn_plate_are_named() {
    let counts = [1, 2, 0, 0, 0, 0, 0, 0];
    assert_eq!(Lent::new().test_plan(&job_a(), &counts), refused(11, 1));
    let counts = [2, 2, 0, 0, 0, 0, 0, 0];
    assert_eq!(Lent::new().test_plan(&job_a(), &counts), refused(11, 2));
    let counts = [2, 0, 3, 3, 0, 0, 0, 1];
    assert_eq!(Lent::new().test_plan(&job_a(), &counts), refused(12, 1));
}

#[test]
fn a_residual_that_two_cuts_leave_is_supplied_by_both() {
    // Plate 2 arises from cut 1 (type 0) and cut 5 (type 3); plate 3 from cut 2.
    let counts = [1, 1, 0, 2, 1, 0, 0, 0];
    assert_eq!(Lent::new().test_plan(&job_a(), &counts), boards(2));
    let counts = [1, 1, 0, 3, 1, 0, 0, 0];
    assert_eq!(Lent::new().test_plan(&job_a(), &counts), refused(12, 2));
}

#[test]
fn a_chain_of_residuals_is_supplied_link_by_link() {
    // Plate 1 is (2, 1, 2), plate 2 is (1, 1, 2): cut 2 leaves plate 2, cut 3 nothing.
    let words = job(Mode::TwoNonExact, [3, 1], &[[1, 1, 1]]);
    assert_eq!(Lent::new().test_plan(&words, &[1, 1, 1]), boards(1));
    assert_eq!(Lent::new().test_plan(&words, &[1, 0, 1]), refused(12, 2));
    assert_eq!(Lent::new().test_plan(&words, &[1, 2, 0]), refused(12, 1));
}

#[test]
fn random_counts_are_accepted_exactly_by_the_constraints() {
    let mut random = Random::new(3);
    let mut lent = Lent::new();
    let mut accepted = 0;
    for _ in 0..20_000 {
        let structured = random_job(&mut random);
        let words = words_of(&structured);
        let cuts = plain::listing(&words).1.len();
        let high = random.pick(&[1, 2, 4]);
        let counts: Vec<u16> = (0..cuts)
            .map(|_| random.between(0, high).saturating_sub(random.between(0, 1)))
            .collect();
        let expected = plain::accepts(&words, &counts);
        let answer = lent.test_plan(&words, &counts);
        let opened = answer.ok().map(|outlay| [outlay.boards, outlay.cost]);
        assert_eq!(opened, expected);
        let unfolded = lent.unfold(&words, &counts).ok();
        let boards = expected.map(|[boards, _]| boards);
        assert_eq!(unfolded.map(|result| result.boards), boards);
        accepted += usize::from(expected.is_some());
    }
    assert!(accepted > 500, "{accepted} plans were accepted");
}
