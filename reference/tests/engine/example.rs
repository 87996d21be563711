//! Job A's printed output, and the 6 by 6 example of source document 001.

use crate::common::boards;
use crate::common::jobs::{job, job_a, PLAN_A};
use crate::common::lent::Lent;
use crate::common::plain;
use crate::common::texts::{assert_text, job_text, layout_text, lines, plan_text};
use reference::{fold_text, saw_text, Listed, Mode, Unfolded};

const OUTPUT_A: &str =
    "        7        1        0        1        1        1        1        0        0        0
        7        1        0        1        2        1        2        5        0        0
        7        1        0        2        1        1        2        0        4        0
        7        1        0        2        2        1        2        3        4        0
        7        2        0        1        1        1        1        0        0        0
        8        2        2        1        1
";

const PLAN_LINES_A: &str =
    "        3        0        1        2        9        7        1        0
        3        1        2        1        9        3        1        0
        3        2        2        1        4        4        2        0
        3        4        2        1        6        3        2        0
";

/// Job A, its plan and its prices, as document 01 gives them.
fn text_a() -> Vec<u8> {
    let mut text = job_text(&job_a());
    text.extend(PLAN_LINES_A.as_bytes());
    let mut prices = lines(&[&[4, 1, 2, 5], &[5, 1, 1], &[5, 2, 0]]);
    prices.extend(lines(&[&[6, 1, 0], &[6, 2, 0], &[6, 3, 1]]));
    prices.extend(lines(&[&[6, 4, 0], &[6, 5, 0]]));
    text.extend(prices);
    text
}

#[test]
fn job_a_is_answered_as_printed() {
    assert_text(&saw_text(&text_a()), OUTPUT_A.as_bytes());
}

#[test]
fn job_a_without_prices_has_sum_0_d_1_cheapest_0() {
    let mut text = job_text(&job_a());
    text.extend(PLAN_LINES_A.as_bytes());
    let (placements, _) = OUTPUT_A.split_at(5 * 91);
    let mut expected = placements.as_bytes().to_vec();
    expected.extend(lines(&[&[8, 2, 0, 1, 0]]));
    assert_text(&saw_text(&text), &expected);
}

#[test]
fn job_a_folds_back_to_its_plan() {
    let mut text = job_text(&job_a());
    text.extend(OUTPUT_A.as_bytes()[..5 * 91].iter());
    assert_text(&fold_text(&text), PLAN_LINES_A.as_bytes());
    let mut lent = Lent::new();
    lent.unfold(&job_a(), &PLAN_A).unwrap();
    let lines = lent.lines();
    assert_eq!(lent.fold(&job_a(), &lines), boards(2));
    assert_eq!(lent.counts[..8], PLAN_A);
}

/// Table 1 of 001: a board of 6 by 6, items 4 by 3 and 2 by 2, five of each.
fn example() -> Vec<u16> {
    job(Mode::TwoNonExact, [6, 6], &[[4, 3, 5], [2, 2, 5]])
}

/// Table 4 of 001: width, height and stage of plate types 0 to 6.
const TABLE_4: [[u16; 3]; 7] = [
    [6, 6, 1],
    [6, 3, 1],
    [2, 3, 2],
    [6, 4, 1],
    [4, 2, 2],
    [6, 2, 1],
    [2, 2, 2],
];

/// The columns of Fig. 8 of 001: plate type, twice the item type, and the residual rows with a 1.
const FIG_8: [[u16; 4]; 10] = [
    [0, 2, 1, 2],
    [0, 4, 3, 4],
    [1, 2, 0, 2],
    [1, 4, 0, 4],
    [2, 4, 0, 0],
    [3, 2, 0, 2],
    [3, 4, 5, 4],
    [4, 4, 0, 6],
    [5, 4, 0, 4],
    [6, 4, 0, 0],
];

/// The solution of 001, section 2.4, in cut numbers.
const SOLUTION: [u16; 10] = [3, 0, 2, 1, 2, 0, 0, 1, 0, 1];

#[test]
fn the_6_by_6_example_is_listed_as_in_the_source() {
    let mut lent = Lent::new();
    let listed = Listed {
        residuals: 6,
        cuts: 10,
    };
    assert_eq!(lent.list(&example()), Ok(listed));
    let records = plain::plate_words(&example(), &TABLE_4);
    assert_eq!(lent.plates[..28], records);
    assert_eq!(lent.cuts[..40], FIG_8.concat());
}

#[test]
fn the_6_by_6_example_needs_three_boards() {
    let mut lent = Lent::new();
    assert_eq!(lent.test_plan(&example(), &SOLUTION), boards(3));
    let unfolded = Unfolded {
        boards: 3,
        pieces: 10,
        offcuts: 3,
    };
    assert_eq!(lent.unfold(&example(), &SOLUTION), Ok(unfolded));
    let lines = [
        [1, 0, 1, 1, 1, 1, 0, 0, 0],
        [1, 0, 1, 2, 1, 2, 4, 0, 0],
        [1, 0, 2, 1, 1, 1, 0, 3, 0],
        [1, 0, 2, 2, 1, 2, 4, 3, 0],
        [2, 0, 1, 1, 1, 1, 0, 0, 0],
        [2, 0, 2, 1, 1, 1, 0, 3, 0],
        [3, 0, 1, 1, 1, 1, 0, 0, 0],
        [3, 0, 2, 1, 1, 2, 0, 3, 0],
        [3, 0, 2, 2, 1, 2, 2, 3, 0],
        [3, 0, 2, 3, 1, 2, 4, 3, 0],
    ];
    assert_eq!(lent.lines(), lines);
    assert_eq!(lent.fold(&example(), &lines), boards(3));
    assert_eq!(lent.counts[..10], SOLUTION);
}

#[test]
fn the_6_by_6_example_as_texts() {
    let mut plan = job_text(&example());
    plan.extend(plan_text(&TABLE_4, &FIG_8, &SOLUTION));
    let output = saw_text(&plan);
    let (placements, last) = output.split_at(10 * 91);
    assert_text(last, &lines(&[&[8, 3, 0, 1, 0]]));
    let mut layouts = job_text(&example());
    layouts.extend(placements);
    assert_text(
        &fold_text(&layouts),
        &plan_text(&TABLE_4, &FIG_8, &SOLUTION),
    );
    let mut lent = Lent::new();
    lent.unfold(&example(), &SOLUTION).unwrap();
    assert_text(placements, &layout_text(&lent.lines()));
}
