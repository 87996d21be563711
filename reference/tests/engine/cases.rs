//! Cases (a) to (m) of document 01, at the level of the five calls.

use crate::common::boards;
use crate::common::jobs::{job, job_a, job_b, PLAN_A, PRICES_A};
use crate::common::lent::Lent;
use crate::common::plain;
use crate::common::refused;
use reference::{Bound, Listed, Mode, Unfolded};

/// Job A's plan with other counts for some cuts.
fn plan_a(changes: &[(usize, u16)]) -> Vec<u16> {
    let mut counts = PLAN_A.to_vec();
    for &(cut, count) in changes {
        counts[cut - 1] = count;
    }
    counts
}

#[test]
fn a_job_a_has_5_residual_types_and_8_cuts() {
    let mut lent = Lent::new();
    let listed = Listed {
        residuals: 5,
        cuts: 8,
    };
    assert_eq!(lent.list(&job_a()), Ok(listed));
    let plates = [
        [9, 7, 1],
        [9, 3, 1],
        [4, 4, 2],
        [9, 4, 1],
        [6, 3, 2],
        [3, 3, 2],
    ];
    let cuts = [
        [0, 2, 1, 2],
        [0, 4, 3, 4],
        [1, 4, 0, 4],
        [2, 4, 0, 0],
        [3, 2, 0, 2],
        [3, 4, 0, 4],
        [4, 4, 0, 5],
        [5, 4, 0, 0],
    ];
    assert_eq!(lent.plates[..24], plain::plate_words(&job_a(), &plates));
    assert_eq!(lent.cuts[..32], cuts.concat());
}

#[test]
fn b_its_plan_opens_2_boards() {
    assert_eq!(Lent::new().test_plan(&job_a(), &PLAN_A), boards(2));
    let unfolded = Unfolded {
        boards: 2,
        pieces: 5,
        offcuts: 3,
    };
    assert_eq!(Lent::new().unfold(&job_a(), &PLAN_A), Ok(unfolded));
}

#[test]
fn c_cut_4_at_2_is_accepted() {
    let counts = plan_a(&[(4, 2)]);
    assert_eq!(Lent::new().test_plan(&job_a(), &counts), boards(2));
}

#[test]
fn d_cut_4_at_3_overdraws_plate_2() {
    let counts = plan_a(&[(4, 3)]);
    assert_eq!(Lent::new().test_plan(&job_a(), &counts), refused(12, 2));
    assert_eq!(Lent::new().unfold(&job_a(), &counts), refused(12, 2));
}

#[test]
fn e_cuts_1_4_7_alone_overdraw_plate_4() {
    let counts = [2, 0, 0, 2, 0, 0, 1, 0];
    assert_eq!(Lent::new().test_plan(&job_a(), &counts), refused(12, 4));
}

#[test]
fn f_no_counts_leave_type_1_short() {
    assert_eq!(Lent::new().test_plan(&job_a(), &[]), refused(11, 1));
    assert_eq!(Lent::new().unfold(&job_a(), &[]), refused(11, 1));
}

#[test]
fn g_prices_give_2_over_1() {
    let bound = Bound { sum: 2, d: 1 };
    assert_eq!(Lent::new().test_prices(&job_a(), &PRICES_A), Ok(bound));
}

#[test]
fn h_plate_price_3_at_0_puts_cut_5_over_its_limit() {
    let mut prices = PRICES_A;
    prices[5] = 0;
    assert_eq!(Lent::new().test_prices(&job_a(), &prices), refused(14, 5));
}

#[test]
fn i_all_prices_0_bound_nothing() {
    for d in [1, 7, 9_999] {
        let prices = [d, 0, 0, 0, 0, 0, 0, 0];
        let bound = Bound {
            sum: 0,
            d: u32::from(d),
        };
        assert_eq!(Lent::new().test_prices(&job_a(), &prices), Ok(bound));
    }
}

#[test]
fn j_job_a_in_2e_has_4_residual_types_and_7_cuts() {
    let exact = job(Mode::TwoExact, [9, 7], &[[5, 4, 2], [3, 3, 3]]);
    let mut lent = Lent::new();
    let listed = Listed {
        residuals: 4,
        cuts: 7,
    };
    assert_eq!(lent.list(&exact), Ok(listed));
    let plates = [[9, 7, 1], [9, 3, 1], [9, 4, 1], [6, 3, 2], [3, 3, 2]];
    assert_eq!(lent.plates[..20], plain::plate_words(&exact, &plates));
}

#[test]
fn k_job_b_has_4_residual_types_and_6_cuts() {
    let mut lent = Lent::new();
    let listed = Listed {
        residuals: 4,
        cuts: 6,
    };
    assert_eq!(lent.list(&job_b()), Ok(listed));
    let plates = [[5, 5, 1], [2, 5, 2], [5, 3, 1], [3, 2, 2], [2, 3, 3]];
    assert_eq!(lent.plates[..20], plain::plate_words(&job_b(), &plates));
}

#[test]
fn l_job_b_lies_on_one_board() {
    let counts = [1, 0, 1, 0, 0, 1];
    let mut lent = Lent::new();
    let unfolded = Unfolded {
        boards: 1,
        pieces: 3,
        offcuts: 0,
    };
    assert_eq!(lent.unfold(&job_b(), &counts), Ok(unfolded));
    let lines = [
        [1, 0, 1, 1, 1, 1, 0, 0, 0],
        [1, 0, 1, 2, 1, 2, 3, 0, 0],
        [1, 0, 1, 2, 2, 2, 3, 2, 0],
    ];
    assert_eq!(lent.lines(), lines);
    assert_eq!(lent.fold(&job_b(), &lines), boards(1));
    assert_eq!(lent.counts[..6], counts);
}

#[test]
fn m_an_item_as_large_as_the_board_is_admitted() {
    let listed = Listed {
        residuals: 0,
        cuts: 1,
    };
    for mode in Mode::ALL {
        let admitted = job(mode, [9, 7], &[[9, 7, 1]]);
        assert_eq!(Lent::new().list(&admitted), Ok(listed));
        let larger = job(mode, [9, 7], &[[10, 7, 1]]);
        assert_eq!(Lent::new().list(&larger), refused(3, 1));
        let higher = job(mode, [9, 7], &[[9, 8, 1]]);
        assert_eq!(Lent::new().list(&higher), refused(3, 1));
    }
}
