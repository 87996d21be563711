//! The limits of values, totals and numbers of lines, at the edge and past it.

use crate::common::boards;
use crate::common::jobs::{job, job_a};
use crate::common::lent::Lent;
use crate::common::refused;
use reference::{Listed, Mode};

#[test]
fn sides_reach_10_000() {
    let listed = Ok(Listed {
        residuals: 0,
        cuts: 1,
    });
    for mode in Mode::ALL {
        let words = job(mode, [10_000, 10_000], &[[10_000, 10_000, 1]]);
        assert_eq!(Lent::new().list(&words), listed);
        for index in [5, 6] {
            let mut past = words.clone();
            past[index] = 10_001;
            assert_eq!(Lent::new().list(&past), refused(2, 0));
        }
        for index in [8, 9] {
            let mut past = words.clone();
            past[index] = 10_001;
            assert_eq!(Lent::new().list(&past), refused(2, 1));
        }
        let smallest = job(mode, [1, 1], &[[1, 1, 1]]);
        assert_eq!(Lent::new().list(&smallest), listed);
    }
}

#[test]
fn item_types_reach_40() {
    let words = job(Mode::TwoNonExact, [2, 1], &[[1, 1, 1]; 40]);
    let listed = Listed {
        residuals: 1,
        cuts: 80,
    };
    assert_eq!(Lent::new().list(&words), Ok(listed));
    let past = job(Mode::TwoNonExact, [2, 1], &[[1, 1, 1]; 41]);
    assert_eq!(Lent::new().list(&past), refused(2, 0));
}

#[test]
fn demands_reach_4_000_together() {
    let at_limit = job(Mode::TwoNonExact, [9, 7], &[[5, 4, 4_000]]);
    assert!(Lent::new().list(&at_limit).is_ok());
    let past = job(Mode::TwoNonExact, [9, 7], &[[5, 4, 4_001]]);
    assert_eq!(Lent::new().list(&past), refused(2, 1));
    let mut items = [[1, 1, 100]; 40];
    let at_limit = job(Mode::TwoNonExact, [2, 1], &items);
    assert!(Lent::new().list(&at_limit).is_ok());
    items[39][2] = 101;
    let past = job(Mode::TwoNonExact, [2, 1], &items);
    assert_eq!(Lent::new().list(&past), refused(4, 0));
    // Forty demands of 4,000 are 160,000, which a word does not hold.
    let past = job(Mode::TwoNonExact, [2, 1], &[[1, 1, 4_000]; 40]);
    assert_eq!(Lent::new().list(&past), refused(4, 0));
    let wrapping = job(Mode::TwoNonExact, [2, 1], &[[1, 1, 3_856]; 17]);
    assert_eq!(Lent::new().list(&wrapping), refused(4, 0));
}

#[test]
fn counts_reach_4_000_together() {
    let counts = [1_000, 1_000, 500, 500, 500, 500, 0, 0];
    assert_eq!(Lent::new().test_plan(&job_a(), &counts), boards(2_000));
    let past = [1_000, 1_001, 500, 500, 500, 500, 0, 0];
    assert_eq!(Lent::new().test_plan(&job_a(), &past), refused(10, 0));
    let mut lent = Lent::new();
    let unfolded = lent.unfold(&job_a(), &counts).unwrap();
    assert_eq!((unfolded.boards, unfolded.pieces), (2_000, 4_000));
    let lines = lent.lines();
    assert_eq!(lines.len(), 4_000);
    assert_eq!(lent.fold(&job_a(), &lines), boards(2_000));
    assert_eq!(lent.counts[..8], counts);
}

#[test]
fn layout_lines_reach_4_000() {
    let words = job(Mode::TwoNonExact, [5, 4], &[[5, 4, 1]]);
    let mut lines: Vec<[u16; 9]> = (1..=4_000)
        .map(|board| [board, 0, 1, 1, 1, 1, 0, 0, 0])
        .collect();
    assert_eq!(Lent::new().fold(&words, &lines), boards(4_000));
    lines.push([4_000, 0, 2, 1, 1, 1, 0, 0, 0]);
    assert_eq!(Lent::new().fold(&words, &lines), refused(10, 0));
    lines[4_000][0] = 4_001;
    assert_eq!(Lent::new().fold(&words, &lines), refused(2, 4_001));
}

#[test]
fn one_stack_and_one_strip_of_4_000_lines() {
    let words = job(Mode::ThreeNonExact, [2, 3_999], &[[1, 3_999, 1], [1, 1, 1]]);
    let mut lines = vec![[1, 0, 1, 1, 1, 1, 0, 0, 0]];
    lines.extend((0..3_999).map(|place| [1, 0, 1, 2, place + 1, 2, 1, place, 0]));
    let refusal = Lent::new().fold(&words, &lines);
    // 3,999 heights on type 0, as many on stages 2 and 3: the listing has over 2,048 types.
    assert_eq!(refusal, refused(6, 0));
    let words = job(
        Mode::ThreeNonExact,
        [2, 2_000],
        &[[1, 2_000, 1], [1, 200, 1]],
    );
    let mut lines = vec![[1, 0, 1, 1, 1, 1, 0, 0, 0]];
    lines.extend((0..10).map(|place| [1, 0, 1, 2, place + 1, 2, 1, 200 * place, 0]));
    assert_eq!(Lent::new().fold(&words, &lines), boards(1));
    let words = job(Mode::TwoNonExact, [2_000, 1], &[[1, 1, 2_000]]);
    let row: Vec<[u16; 9]> = (0..2_000)
        .map(|x| [1, 0, 1, x + 1, 1, 1, x, 0, 0])
        .collect();
    assert_eq!(Lent::new().fold(&words, &row), boards(1));
}

#[test]
fn the_denominator_and_prices_reach_9_999() {
    let mut prices = [9_999, 9_999, 0, 0, 0, 9_999, 0, 0];
    let bound = Lent::new().test_prices(&job_a(), &prices).unwrap();
    assert_eq!((bound.sum, bound.d), (19_998, 9_999));
    prices[5] = 10_000;
    assert_eq!(Lent::new().test_prices(&job_a(), &prices), refused(2, 6));
    prices[0] = 10_000;
    assert_eq!(Lent::new().test_prices(&job_a(), &prices), refused(2, 1));
}
