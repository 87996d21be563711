//! The rows of the saw text after the line row, and its output (document 01, "Texts" and "Where
//! each number is given").

use crate::common::jobs::{job, random_job, words_of};
use crate::common::lent::Lent;
use crate::common::plans::random_plan;
use crate::common::prices::{disturb, least_prices, words_of as price_words};
use crate::common::random::Random;
use crate::common::texts::{
    after_job_a, assert_text, job_text, layout_text, line, lines, plan_text_of, price_text_on,
    refusal,
};
use reference::listing::FULL;
use reference::{fold_text, saw_text, Job, Listing, Mode};

/// The answer to job A's first four lines and these is this refusal.
fn assert_refused(all: &[&[u32]], number: u32, place: u32) {
    assert_text(&saw_text(&after_job_a(all)), &refusal(number, place));
}

#[test]
fn no_lines_3_are_admitted_and_leave_type_1_short() {
    assert_refused(&[], 11, 1);
    assert_refused(&[&[4, 1, 1, 0], &[5, 1, 0]], 11, 1);
}

#[test]
fn the_job_row() {
    let text = lines(&[
        &[1, 2, 0, 1, 2, 0],
        &[10, 0, 9, 7, 1],
        &[2, 1, 5, 4, 4_000, 0],
        &[2, 2, 3, 8, 1, 0],
    ]);
    assert_text(&saw_text(&text), &refusal(3, 2));
    let text = lines(&[
        &[1, 2, 0, 1, 2, 0],
        &[10, 0, 9, 7, 1],
        &[2, 1, 5, 4, 4_000, 0],
        &[2, 2, 3, 3, 1, 0],
    ]);
    assert_text(&saw_text(&text), &refusal(4, 0));
    let text = lines(&[
        &[1, 2, 0, 1, 2, 0],
        &[10, 0, 9, 7, 1],
        &[2, 1, 5, 4, 4_000, 0],
        &[2, 2, 10_000, 3, 1, 0],
    ]);
    assert_text(&saw_text(&text), &refusal(3, 2));
}

#[test]
fn the_model_row_goes_before_the_plan() {
    let text = lines(&[
        &[1, 2, 0, 1, 1, 0],
        &[10, 0, 10_000, 9, 1],
        &[2, 1, 1, 1, 1, 0],
        &[3, 2_047, 1, 1, 1, 1, 1, 0],
    ]);
    assert_text(&saw_text(&text), &refusal(6, 0));
    let mut text = job_text(&job(Mode::TwoNonExact, [105, 101], &[[1, 1, 1]; 40]));
    text.extend(line(&[3, 2_047, 1, 1, 1, 1, 1, 0]));
    assert_text(&saw_text(&text), &refusal(7, 0));
}

#[test]
fn a_pair_that_is_no_cut_is_8() {
    assert_refused(&[&[3, 6, 1, 1, 1, 1, 1, 0]], 8, 5);
    assert_refused(
        &[&[3, 0, 1, 1, 9, 7, 1, 0], &[3, 1, 1, 1, 9, 3, 1, 0]],
        8,
        6,
    );
    assert_refused(
        &[&[3, 2, 1, 1, 4, 4, 2, 0], &[3, 1, 1, 1, 9, 3, 1, 0]],
        8,
        5,
    );
}

#[test]
fn a_cut_not_after_the_last_is_9_never_1() {
    assert_refused(
        &[&[3, 0, 1, 1, 9, 7, 1, 0], &[3, 0, 1, 1, 9, 7, 1, 0]],
        9,
        6,
    );
    assert_refused(
        &[&[3, 0, 2, 1, 9, 7, 1, 0], &[3, 0, 1, 1, 9, 7, 1, 0]],
        9,
        6,
    );
    assert_refused(
        &[
            &[3, 1, 2, 1, 9, 3, 1, 0],
            &[3, 0, 2, 1, 9, 7, 1, 0],
            &[3, 0, 1, 1, 9, 7, 1, 0],
        ],
        9,
        6,
    );
    // Each is compared with the line before it.
    assert_refused(
        &[
            &[3, 0, 1, 1, 9, 7, 1, 0],
            &[3, 4, 2, 1, 6, 3, 2, 0],
            &[3, 3, 2, 1, 9, 4, 1, 0],
        ],
        9,
        7,
    );
    // A fault of order goes before a total that is too high.
    assert_refused(
        &[&[3, 0, 1, 4_000, 9, 7, 1, 0], &[3, 0, 1, 4_000, 9, 7, 1, 0]],
        9,
        6,
    );
}

#[test]
fn a_line_8_goes_before_9_on_an_earlier_line() {
    assert_refused(
        &[
            &[3, 0, 2, 1, 9, 7, 1, 0],
            &[3, 0, 1, 1, 9, 7, 1, 0],
            &[3, 1, 1, 1, 9, 3, 1, 0],
        ],
        8,
        7,
    );
}

#[test]
fn the_plan_row_runs_10_11_12() {
    assert_refused(
        &[&[3, 0, 1, 4_000, 9, 7, 1, 0], &[3, 5, 2, 1, 3, 3, 2, 0]],
        10,
        0,
    );
    assert_refused(
        &[&[3, 0, 1, 3_999, 9, 7, 1, 0], &[3, 5, 2, 1, 3, 3, 2, 0]],
        11,
        2,
    );
    assert_refused(
        &[&[3, 0, 1, 3, 9, 7, 1, 0], &[3, 2, 2, 4, 4, 4, 2, 0]],
        12,
        2,
    );
}

#[test]
fn n_and_m_that_are_not_the_models_are_13_after_all_their_lines() {
    let plan: [&[u32]; 4] = [
        &[3, 0, 1, 2, 9, 7, 1, 0],
        &[3, 1, 2, 1, 9, 3, 1, 0],
        &[3, 2, 2, 1, 4, 4, 2, 0],
        &[3, 4, 2, 1, 6, 3, 2, 0],
    ];
    for (types, residuals) in [(1, 5), (3, 5), (40, 5), (2, 0), (2, 4), (2, 6), (2, 2_047)] {
        let mut text = after_job_a(&plan);
        text.extend(line(&[4, 1, types, residuals]));
        for number in 1..=types {
            text.extend(line(&[5, number, 9_999]));
        }
        for number in 1..=residuals {
            text.extend(line(&[6, number, 0]));
        }
        assert_text(&saw_text(&text), &refusal(13, 0));
        text.truncate(text.len() - 28);
        let missing = 9 + types + residuals;
        assert_text(&saw_text(&text), &refusal(1, missing));
    }
}

#[test]
fn a_cut_over_its_limit_is_14_naming_the_cut() {
    let mut text = after_job_a(&[
        &[3, 0, 1, 2, 9, 7, 1, 0],
        &[3, 0, 2, 3, 9, 7, 1, 0],
        &[4, 1, 2, 5],
    ]);
    text.extend(lines(&[&[5, 1, 1], &[5, 2, 0], &[6, 1, 0], &[6, 2, 0]]));
    text.extend(lines(&[&[6, 3, 0], &[6, 4, 0], &[6, 5, 0]]));
    assert_text(&saw_text(&text), &refusal(14, 5));
}

#[test]
fn a_refusal_is_one_line_alone() {
    let output = saw_text(&after_job_a(&[&[3, 0, 1, 2, 9, 7, 1, 0]]));
    assert_eq!(output, b"        9       11        2\n");
}

#[test]
fn prices_without_residual_types() {
    let text = lines(&[
        &[1, 3, 1, 1, 1, 0],
        &[10, 0, 9, 7, 1],
        &[2, 1, 9, 7, 2, 0],
        &[3, 0, 1, 2, 9, 7, 1, 0],
        &[4, 9_999, 1, 0],
        &[5, 1, 9_999],
    ]);
    let expected = lines(&[
        &[7, 1, 0, 1, 1, 1, 1, 0, 0, 0],
        &[7, 2, 0, 1, 1, 1, 1, 0, 0, 0],
        &[8, 2, 19_998, 9_999, 1],
    ]);
    assert_text(&saw_text(&text), &expected);
}

/// A random job with a random plan: the saw text without prices, and what the calls answer.
fn random_text(random: &mut Random, lent: &mut Lent) -> (Job, Vec<u8>, Vec<u8>, u32) {
    let structured = random_job(random);
    let words = words_of(&structured);
    let listing = Listing::walk(&structured, FULL).unwrap();
    let counts = random_plan(random, &structured, &listing);
    let mut text = job_text(&words);
    text.extend(plan_text_of(&words, &counts));
    let cost = lent.test_plan(&words, &counts).unwrap().cost;
    lent.unfold(&words, &counts).unwrap();
    (structured, text, layout_text(&lent.lines()), cost)
}

#[test]
fn the_output_of_a_saw_text_folds_back_into_its_plan() {
    let mut random = Random::new(9);
    let mut lent = Lent::new();
    for _ in 0..3_000 {
        let (structured, text, placements, cost) = random_text(&mut random, &mut lent);
        let mut expected = placements.clone();
        expected.extend(line(&[8, cost, 0, 1, 0]));
        assert_text(&saw_text(&text), &expected);
        let head = job_text(&words_of(&structured));
        let layouts = [head.clone(), placements].concat();
        assert_text(&fold_text(&layouts), &text[head.len()..]);
    }
}

#[test]
fn random_prices_are_answered_with_their_bound_or_refusal() {
    let mut random = Random::new(10);
    let mut lent = Lent::new();
    let mut refusals = 0;
    for _ in 0..3_000 {
        let (structured, mut text, mut expected, cost) = random_text(&mut random, &mut lent);
        let listing = Listing::walk(&structured, FULL).unwrap();
        let Some(mut prices) = least_prices(&mut random, &structured, &listing) else {
            continue;
        };
        if random.once_in(3) {
            disturb(&mut random, &mut prices);
        }
        text.extend(price_text_on(structured.sizes.len(), &prices));
        match lent.test_prices(&words_of(&structured), &price_words(&prices)) {
            Ok(bound) => {
                let less = u64::from(cost - 1) * u64::from(bound.d);
                let cheapest = u32::from(less < u64::from(bound.sum));
                expected.extend(line(&[8, cost, bound.sum, bound.d, cheapest]));
            }
            Err(refused) => {
                expected = refusal(refused.number, refused.place);
                refusals += 1;
            }
        }
        assert_text(&saw_text(&text), &expected);
    }
    assert!(refusals > 100, "{refusals} price lists were refused");
}
