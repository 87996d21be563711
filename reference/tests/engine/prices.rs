//! Prices: limits, the rule of each cut, the bound and "cheapest" (document 01, "Prices"; document 02, Six).

use crate::common::jobs::{job, job_a, job_b, PRICES_A};
use crate::common::lent::Lent;
use crate::common::refused;
use reference::{Bound, Mode};

fn test(prices: &[u16]) -> Result<Bound, reference::Refusal> {
    Lent::new().test_prices(&job_a(), prices)
}

#[test]
fn the_denominator_is_word_1() {
    for d in [0, 10_000, 65_535] {
        let mut prices = PRICES_A;
        prices[0] = d;
        assert_eq!(test(&prices), refused(2, 1));
        assert_eq!(test(&[d]), refused(2, 1));
    }
    assert_eq!(
        test(&[9_999, 0, 0, 0, 0, 0, 0, 0]),
        Ok(Bound { sum: 0, d: 9_999 })
    );
}

#[test]
fn every_further_word_is_a_price_surplus_ones_too() {
    for word in 2..=12 {
        let mut prices = vec![1; 12];
        prices[word - 1] = 10_000;
        assert_eq!(test(&prices), refused(2, word as u32));
        prices[word - 1] = 9_999;
        assert_eq!(test(&prices), refused(13, 0));
    }
}

#[test]
fn another_length_is_13() {
    for length in [0, 1, 2, 7, 9, 100] {
        let prices = vec![1; length];
        assert_eq!(test(&prices), refused(13, 0));
    }
}

#[test]
fn without_residual_types_the_prices_are_d_and_the_items() {
    let words = job(Mode::TwoNonExact, [9, 7], &[[9, 7, 3]]);
    let bound = Bound { sum: 15, d: 5 };
    assert_eq!(Lent::new().test_prices(&words, &[5, 5]), Ok(bound));
    assert_eq!(Lent::new().test_prices(&words, &[5, 6]), refused(14, 1));
    assert_eq!(Lent::new().test_prices(&words, &[5, 5, 0]), refused(13, 0));
}

#[test]
fn a_cut_on_type_0_is_held_against_d() {
    // Cut 1: item 1, plates 1 and 2; cut 2: item 2, plates 3 and 4.
    let prices = [10, 4, 0, 3, 3, 7, 0, 0];
    assert_eq!(test(&prices), Ok(Bound { sum: 8, d: 10 }));
    let prices = [9, 4, 0, 3, 3, 7, 0, 0];
    assert_eq!(test(&prices), refused(14, 1));
}

#[test]
fn a_cut_on_a_residual_is_held_against_its_price_not_against_d() {
    // Cut 4 takes item 2 from plate 2, whose price is 1; cut 3 from plate 1, at 2.
    let prices = [100, 0, 2, 50, 1, 0, 0, 0];
    assert_eq!(test(&prices), refused(14, 4));
    let prices = [100, 0, 2, 2, 1, 2, 2, 2];
    assert_eq!(test(&prices), refused(14, 3));
}

#[test]
fn a_residual_costs_at_most_what_the_plates_that_leave_it_cost() {
    // Three stages: plate 4 of job B, (2, 3, 3), is left by cut 3 on plate 1 alone.
    let high = [1, 0, 0, 0, 0, 0, 9_999];
    assert_eq!(Lent::new().test_prices(&job_b(), &high), refused(14, 3));
    // In job A plate 5 is left by cut 7 on plate 4, and that by cuts 2, 3 and 6.
    assert_eq!(test(&[2, 0, 0, 1, 0, 1, 1, 2]), refused(14, 7));
    assert_eq!(test(&[2, 0, 0, 1, 0, 1, 1, 1]), Ok(Bound { sum: 0, d: 2 }));
}

#[test]
fn both_kept_residuals_count() {
    assert_eq!(test(&[5, 0, 0, 6, 0, 0, 0, 0]), refused(14, 1));
    assert_eq!(test(&[5, 0, 0, 0, 6, 0, 0, 0]), refused(14, 1));
    assert_eq!(test(&[5, 0, 0, 3, 3, 0, 0, 0]), refused(14, 1));
    assert_eq!(test(&[5, 0, 0, 0, 0, 6, 0, 0]), refused(14, 2));
    assert_eq!(test(&[5, 0, 0, 0, 0, 0, 6, 0]), refused(14, 2));
}

#[test]
fn a_residual_that_is_not_kept_costs_nothing() {
    // Cut 4 leaves nothing; neither D nor any residual price is added to it.
    assert_eq!(test(&[9, 0, 1, 1, 1, 1, 1, 1]), refused(14, 3));
    assert_eq!(test(&[9, 0, 1, 3, 1, 3, 2, 1]), Ok(Bound { sum: 3, d: 9 }));
}

#[test]
fn the_lowest_cut_over_its_limit_is_named() {
    assert_eq!(test(&[1, 9, 9, 0, 0, 0, 0, 0]), refused(14, 1));
    assert_eq!(test(&[9, 0, 9, 0, 0, 0, 0, 0]), refused(14, 3));
    assert_eq!(test(&[9, 0, 1, 1, 1, 1, 0, 0]), refused(14, 7));
    assert_eq!(test(&[9, 0, 1, 2, 1, 2, 1, 0]), refused(14, 8));
}

#[test]
fn the_bound_is_not_reduced_and_reaches_its_highest_value() {
    let words = job(Mode::TwoNonExact, [9, 7], &[[9, 7, 4_000]]);
    let bound = Bound {
        sum: 39_996_000,
        d: 9_999,
    };
    assert_eq!(Lent::new().test_prices(&words, &[9_999, 9_999]), Ok(bound));
    let bound = Bound { sum: 8_000, d: 4 };
    assert_eq!(Lent::new().test_prices(&words, &[4, 2]), Ok(bound));
}

#[test]
fn cheapest_compares_whole_products() {
    // 7 over 3 lies between 2 and 3: a cost of 3 is the cheapest, one of 4 is not.
    let bound = Bound { sum: 7, d: 3 };
    assert!(bound.is_cheapest(1) && bound.is_cheapest(2) && bound.is_cheapest(3));
    assert!(!bound.is_cheapest(4));
    // 6 over 3 is just 2.
    let bound = Bound { sum: 6, d: 3 };
    assert!(bound.is_cheapest(2) && !bound.is_cheapest(3));
    let nothing = Bound { sum: 0, d: 9_999 };
    assert!(!nothing.is_cheapest(1));
    let highest = Bound {
        sum: 39_996_000,
        d: 9_999,
    };
    assert!(highest.is_cheapest(4_000) && !highest.is_cheapest(4_001));
    assert!(!Bound::NONE.is_cheapest(1));
}
