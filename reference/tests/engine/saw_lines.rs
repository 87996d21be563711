//! The line row of the saw text: kinds, order, running numbers and limits (document 01,
//! "Texts").

use crate::common::texts::{after_job_a, assert_text, line, lines, refusal};
use reference::saw_text;

const ONE: &[u32] = &[1, 2, 0, 1, 2, 0];
const SIZE: &[u32] = &[10, 0, 9, 7, 1];
const TYPE_1: &[u32] = &[2, 1, 5, 4, 2, 0];
const TYPE_2: &[u32] = &[2, 2, 3, 3, 3, 0];
const CUT_1: &[u32] = &[3, 0, 1, 2, 9, 7, 1, 0];
const PRICES: [&[u32]; 8] = [
    &[4, 1, 2, 5],
    &[5, 1, 1],
    &[5, 2, 0],
    &[6, 1, 0],
    &[6, 2, 0],
    &[6, 3, 1],
    &[6, 4, 0],
    &[6, 5, 0],
];

/// The answer to lines is this refusal.
fn assert_refused(all: &[&[u32]], number: u32, place: u32) {
    assert_text(&saw_text(&lines(all)), &refusal(number, place));
}

/// The answer to job A's first four lines and these is this refusal.
fn assert_refused_after_job(all: &[&[u32]], number: u32, place: u32) {
    assert_text(&saw_text(&after_job_a(all)), &refusal(number, place));
}

/// Job A, its plan (lines 5 to 8) and its prices (lines 9 to 16), with one line replaced.
fn with_line(number: usize, replaced: &[u32]) -> Vec<u8> {
    let plan: [&[u32]; 4] = [
        CUT_1,
        &[3, 1, 2, 1, 9, 3, 1, 0],
        &[3, 2, 2, 1, 4, 4, 2, 0],
        &[3, 4, 2, 1, 6, 3, 2, 0],
    ];
    let mut all = vec![ONE, SIZE, TYPE_1, TYPE_2];
    all.extend(plan);
    all.extend(PRICES);
    all[number - 1] = replaced;
    lines(&all)
}

#[test]
fn an_empty_text_misses_line_1() {
    assert_refused(&[], 1, 1);
}

#[test]
fn a_blank_line_is_1_anywhere() {
    let whole = with_line(1, ONE);
    let starts = [0, 55, 101, 156, 211, 284, 357, 430, 503, 540, 568, 596, 624];
    assert_text(&saw_text(b"\n"), &refusal(1, 1));
    for (index, &start) in starts.iter().enumerate() {
        let mut text = whole[..start].to_vec();
        text.push(b'\n');
        text.extend(&whole[start..]);
        assert_text(&saw_text(&text), &refusal(1, index as u32 + 1));
    }
    let mut text = whole.clone();
    text.push(b'\n');
    assert_text(&saw_text(&text), &refusal(1, 17));
}

#[test]
fn line_1_must_come_first() {
    for first in [TYPE_1, CUT_1, PRICES[0], PRICES[1], PRICES[3]] {
        assert_refused(&[first, ONE, TYPE_1, TYPE_2], 1, 1);
    }
}

#[test]
fn missing_lines_2_are_one_past_the_last() {
    assert_refused(&[ONE, SIZE], 1, 3);
    assert_refused(&[ONE, SIZE, TYPE_1], 1, 4);
}

#[test]
fn too_few_or_too_many_lines_2_name_the_line_that_does_not_fit() {
    for other in [CUT_1, PRICES[0], &[7, 1, 0, 1, 1, 1, 1, 0, 0, 0], ONE] {
        assert_refused(&[ONE, SIZE, other], 1, 3);
        assert_refused(&[ONE, SIZE, TYPE_1, other], 1, 4);
    }
    assert_refused(&[ONE, SIZE, TYPE_1, TYPE_2, &[2, 3, 1, 1, 1, 0]], 1, 5);
    assert_refused(&[ONE, SIZE, TYPE_1, TYPE_2, TYPE_2], 1, 5);
}

#[test]
fn a_running_number_that_is_not_the_next_is_1_also_outside_its_limits() {
    for wrong in [0, 2, 3, 41, 99, 999_999_999] {
        assert_refused(&[ONE, SIZE, &[2, wrong, 5, 4, 2, 0]], 1, 3);
        // 1 goes before 2 on the same line.
        assert_refused(&[ONE, SIZE, &[2, wrong, 0, 10_001, 4_001, 0]], 1, 3);
    }
    for wrong in [0, 1, 3, 99] {
        assert_refused(&[ONE, SIZE, TYPE_1, &[2, wrong, 3, 3, 3, 0]], 1, 4);
        assert_text(&saw_text(&with_line(11, &[5, wrong, 0])), &refusal(1, 11));
        assert_text(&saw_text(&with_line(13, &[6, wrong, 0])), &refusal(1, 13));
        assert_text(
            &saw_text(&with_line(13, &[6, wrong, 10_000])),
            &refusal(1, 13),
        );
    }
}

#[test]
fn values_of_line_1_outside_their_limits() {
    let bad: [[u32; 6]; 12] = [
        [1, 1, 0, 1, 2, 0],
        [1, 4, 0, 1, 2, 0],
        [1, 0, 0, 1, 2, 0],
        [1, 2, 2, 1, 2, 0],
        [1, 2, 0, 0, 2, 0],
        [1, 2, 0, 7, 2, 0],
        [1, 2, 0, 999_999_999, 2, 0],
        [1, 2, 0, 1, 0, 0],
        [1, 2, 0, 1, 41, 0],
        [1, 2, 0, 1, 2, 21],
        [1, 2, 0, 1, 2, 999_999_999],
        [1, 9, 9, 0, 0, 99],
    ];
    for first in &bad {
        assert_refused(&[first, TYPE_1, TYPE_2], 2, 1);
        assert_refused(&[first], 2, 1);
    }
}

#[test]
fn line_1_has_six_groups() {
    for first in [&ONE[..5], &[1, 2, 0, 1, 2, 0, 0], &[1, 2, 0, 9, 7, 2, 0]] {
        assert_refused(&[first, TYPE_1, TYPE_2], 1, 1);
        assert_refused(&[first], 1, 1);
    }
    // 1 goes before 2, and the form of line 1 before its values.
    assert_refused(&[&[1, 2, 0, 1, 41]], 1, 1);
    for blade in 0..=20 {
        assert_refused(&[&[1, 2, 0, 1, 2, blade], SIZE], 1, 3);
    }
}

#[test]
fn values_of_line_2_outside_their_limits() {
    for (index, value) in [
        (2, 0),
        (2, 10_001),
        (3, 0),
        (3, 10_001),
        (4, 0),
        (4, 4_001),
        (5, 2),
    ] {
        let mut first = [2, 1, 5, 4, 2, 0];
        first[index] = value;
        assert_refused(&[ONE, SIZE, &first, TYPE_2], 2, 3);
        let mut second = [2, 2, 5, 4, 2, 0];
        second[index] = value;
        assert_refused(&[ONE, SIZE, TYPE_1, &second], 2, 4);
    }
}

#[test]
fn values_of_line_3_outside_their_limits() {
    for bad in [
        [3, 2_048, 1, 1, 1, 1, 1, 0],
        [3, 0, 0, 1, 9, 7, 1, 0],
        [3, 0, 3, 1, 9, 7, 1, 0],
        [3, 0, 1, 0, 9, 7, 1, 0],
        [3, 0, 1, 4_001, 9, 7, 1, 0],
        [3, 0, 1, 1, 9, 7, 1, 2],
    ] {
        assert_refused_after_job(&[&bad], 2, 5);
    }
    // Within the limits, but no cut: the plan row.
    assert_refused_after_job(&[&[3, 2_047, 2, 4_000, 1, 1, 1, 0]], 8, 5);
}

#[test]
fn values_of_line_4_outside_their_limits() {
    for bad in [
        [4, 0, 2, 5],
        [4, 10_000, 2, 5],
        [4, 1, 0, 5],
        [4, 1, 41, 5],
        [4, 1, 2, 2_048],
    ] {
        assert_text(&saw_text(&with_line(9, &bad)), &refusal(2, 9));
        assert_refused_after_job(&[&bad], 2, 5);
    }
}

#[test]
fn prices_outside_their_limits() {
    assert_text(&saw_text(&with_line(10, &[5, 1, 10_000])), &refusal(2, 10));
    assert_text(&saw_text(&with_line(16, &[6, 5, 10_000])), &refusal(2, 16));
}

#[test]
fn lines_5_and_6_come_after_4_and_in_that_order() {
    assert_refused_after_job(&[PRICES[1]], 1, 5);
    assert_refused_after_job(&[PRICES[3]], 1, 5);
    assert_refused_after_job(&[PRICES[0], PRICES[3]], 1, 6);
    assert_refused_after_job(&[PRICES[0], PRICES[1], PRICES[3]], 1, 7);
    assert_refused_after_job(&[PRICES[0], PRICES[1], PRICES[2], PRICES[2]], 1, 8);
}

#[test]
fn nothing_but_5_and_6_comes_after_4() {
    for other in [
        CUT_1,
        PRICES[0],
        ONE,
        TYPE_1,
        &[7, 1, 0, 1, 1, 1, 1, 0, 0, 0],
    ] {
        for place in 10..=16 {
            assert_text(
                &saw_text(&with_line(place, other)),
                &refusal(1, place as u32),
            );
        }
        let mut text = with_line(1, ONE);
        text.extend(line(other));
        assert_text(&saw_text(&text), &refusal(1, 17));
    }
}

#[test]
fn kinds_that_no_saw_text_has() {
    let kinds: [&[u32]; 9] = [
        ONE,
        &[7, 1, 0, 1, 1, 1, 1, 0, 0, 0],
        &[8, 2, 2, 1, 1],
        &[9, 1, 1],
        &[0],
        &[0, 1, 1],
        &[10, 1, 1],
        &[33, 0, 1, 2],
        &[999_999_999, 0, 1, 2],
    ];
    for kind in kinds {
        assert_refused_after_job(&[kind], 1, 5);
        assert_refused_after_job(&[CUT_1, kind], 1, 6);
    }
}

#[test]
fn missing_prices_are_one_past_the_last() {
    let whole: Vec<&[u32]> = PRICES.to_vec();
    for length in 1..whole.len() {
        let place = 5 + length as u32;
        assert_refused_after_job(&whole[..length], 1, place);
    }
}

#[test]
fn surplus_prices_are_named() {
    let mut all = PRICES.to_vec();
    all.push(&[6, 6, 0]);
    assert_refused_after_job(&all, 1, 13);
    let none: [&[u32]; 4] = [&[4, 1, 2, 0], PRICES[1], PRICES[2], &[6, 1, 0]];
    assert_refused_after_job(&none, 1, 8);
    let surplus: [&[u32]; 4] = [&[4, 1, 1, 1], PRICES[1], &[5, 2, 0], &[6, 1, 0]];
    assert_refused_after_job(&surplus, 1, 7);
}

#[test]
fn any_byte_after_the_last_admitted_line_is_1() {
    for byte in [b'\n', b' ', b'0', 0, 0xff] {
        let mut text = with_line(1, ONE);
        text.push(byte);
        assert_text(&saw_text(&text), &refusal(1, 17));
    }
}

#[test]
fn the_line_row_is_taken_line_by_line() {
    // 2 on line 5 goes before 1 on line 6, and 1 on line 5 before 2 on line 6.
    let outside: &[u32] = &[3, 0, 1, 0, 9, 7, 1, 0];
    assert_refused_after_job(&[outside, TYPE_1], 2, 5);
    assert_refused_after_job(&[TYPE_1, outside], 1, 5);
    assert_refused(&[&[1, 2, 0, 1, 41, 0]], 2, 1);
}

#[test]
fn the_line_row_goes_before_every_other_row() {
    let large: &[u32] = &[2, 1, 10, 4, 2, 0];
    assert_refused(
        &[ONE, SIZE, large, TYPE_2, CUT_1, &[3, 0, 2, 0, 9, 7, 1, 0]],
        2,
        6,
    );
    assert_refused(
        &[ONE, SIZE, large, TYPE_2, &[3, 9, 1, 1, 1, 1, 1, 0], ONE],
        1,
        6,
    );
    assert_refused(&[ONE, SIZE, large], 1, 4);
    assert_refused(&[ONE, SIZE, large, TYPE_2, &[3, 9, 1, 1, 1, 1, 1, 0]], 3, 1);
    // The prices of a plan that is refused are read all the same.
    assert_refused_after_job(&[&[3, 9, 1, 1, 1, 1, 1, 0], &[4, 1, 1, 0]], 1, 7);
    assert_refused_after_job(
        &[&[3, 9, 1, 1, 1, 1, 1, 0], &[4, 1, 1, 0], &[5, 1, 0]],
        8,
        5,
    );
}
