//! The fold text: its line row, its layouts row and its output (document 01, "Texts").

use crate::common::jobs::{job, job_a};
use crate::common::texts::{after_job_a, assert_text, job_text, layout_text, line, lines, refusal};
use reference::{fold_text, Mode};

const GOOD: &[u32] = &[7, 1, 0, 1, 1, 1, 1, 0, 0, 0];

/// The answer to job A's first three lines and these is this refusal.
fn assert_refused(all: &[&[u32]], number: u32, place: u32) {
    assert_text(&fold_text(&after_job_a(all)), &refusal(number, place));
}

#[test]
fn an_empty_text_and_missing_lines() {
    assert_text(&fold_text(b""), &refusal(1, 1));
    assert_text(
        &fold_text(&lines(&[&[1, 2, 0, 1, 2, 0], &[10, 0, 9, 7, 1]])),
        &refusal(1, 3),
    );
    let text = lines(&[&[1, 2, 0, 1, 2, 0], &[10, 0, 9, 7, 1], &[2, 1, 5, 4, 2, 0]]);
    assert_text(&fold_text(&text), &refusal(1, 4));
    let text = lines(&[
        &[1, 2, 0, 1, 2, 0],
        &[10, 0, 9, 7, 1],
        &[2, 1, 5, 4, 2, 0],
        GOOD,
    ]);
    assert_text(&fold_text(&text), &refusal(1, 4));
}

#[test]
fn kinds_that_no_fold_text_has() {
    let kinds: [&[u32]; 11] = [
        &[1, 2, 0, 1, 2, 0],
        &[10, 0, 9, 7, 1],
        &[2, 3, 1, 1, 1, 0],
        &[3, 0, 1, 2, 9, 7, 1, 0],
        &[4, 1, 2, 5],
        &[5, 1, 1],
        &[6, 1, 1],
        &[8, 2, 2, 1, 1],
        &[9, 1, 1],
        &[0],
        &[17, 1, 1, 1, 1, 1, 0, 0],
    ];
    for kind in kinds {
        assert_refused(&[kind], 1, 5);
        assert_refused(&[GOOD, kind], 1, 6);
    }
}

#[test]
fn a_line_7_of_another_form() {
    assert_refused(&[&[7, 1, 1, 1, 1, 1, 0, 0, 0]], 1, 5);
    assert_refused(&[&[7, 1, 0, 1, 1, 1, 1, 0, 0, 0, 0]], 1, 5);
    let mut text = after_job_a(&[GOOD]);
    text.pop();
    assert_text(&fold_text(&text), &refusal(1, 5));
    text.extend(b"\n\n");
    assert_text(&fold_text(&text), &refusal(1, 6));
}

#[test]
fn values_outside_their_limits() {
    let low = [(1, 0), (2, 1), (3, 0), (4, 0), (5, 0), (6, 0)];
    let high = [
        (1, 4_001),
        (2, 6),
        (3, 4_001),
        (4, 4_001),
        (5, 4_001),
        (6, 3),
        (7, 10_001),
        (8, 10_001),
        (9, 2),
    ];
    for (index, value) in low.into_iter().chain(high) {
        let mut bad = [7, 1, 0, 1, 1, 1, 1, 0, 0, 0];
        bad[index] = value;
        assert_refused(&[&bad], 2, 5);
        assert_refused(&[GOOD, &bad, &[0]], 2, 6);
    }
    assert_refused(
        &[&[7, 4_000, 0, 4_000, 4_000, 4_000, 2, 10_000, 10_000, 0]],
        15,
        5,
    );
}

#[test]
fn no_lines_7_are_admitted_and_leave_type_1_short() {
    assert_refused(&[], 11, 1);
}

#[test]
fn job_and_model_rows_go_before_the_layouts() {
    let out_of_turn: &[u32] = &[7, 2, 0, 1, 1, 1, 1, 0, 0, 0];
    let text = lines(&[
        &[1, 2, 0, 1, 1, 0],
        &[10, 0, 9, 7, 1],
        &[2, 1, 10, 4, 1, 0],
        out_of_turn,
    ]);
    assert_text(&fold_text(&text), &refusal(3, 1));
    let text = lines(&[
        &[1, 2, 0, 1, 2, 0],
        &[10, 0, 9, 7, 1],
        &[2, 1, 1, 1, 4_000, 0],
        &[2, 2, 1, 1, 1, 0],
        out_of_turn,
    ]);
    assert_text(&fold_text(&text), &refusal(4, 0));
    let text = lines(&[
        &[1, 2, 0, 1, 1, 0],
        &[10, 0, 10_000, 9, 1],
        &[2, 1, 1, 1, 1, 0],
        out_of_turn,
    ]);
    assert_text(&fold_text(&text), &refusal(6, 0));
    let mut text = job_text(&job(Mode::TwoNonExact, [105, 101], &[[1, 1, 1]; 40]));
    text.extend(line(out_of_turn));
    assert_text(&fold_text(&text), &refusal(7, 0));
}

/// The faults of the layouts row, the later in the row the earlier in the lines.
fn faults() -> Vec<[u32; 10]> {
    vec![
        [7, 1, 0, 1, 1, 1, 1, 9, 0, 0],
        [7, 2, 0, 1, 1, 1, 1, 0, 0, 0],
        [7, 2, 0, 1, 2, 1, 1, 5, 0, 0],
        [7, 3, 0, 1, 1, 1, 2, 0, 0, 0],
        [7, 3, 0, 1, 1, 2, 2, 0, 3, 0],
        [7, 4, 0, 1, 1, 1, 1, 0, 0, 0],
        [7, 6, 0, 1, 1, 1, 1, 0, 0, 0],
    ]
}

fn assert_faults(faults: &[[u32; 10]], number: u32, place: u32) {
    let all: Vec<&[u32]> = faults.iter().map(|fault| &fault[..]).collect();
    assert_refused(&all, number, place);
}

#[test]
fn the_layouts_row_names_lines_of_the_text() {
    let mut all = faults();
    assert_faults(&all, 15, 11);
    all[6][1] = 5;
    assert_faults(&all, 16, 8);
    all[4] = [7, 3, 0, 1, 2, 1, 2, 3, 0, 0];
    assert_faults(&all, 17, 6);
    all[2] = [7, 2, 0, 1, 2, 1, 2, 5, 0, 0];
    assert_faults(&all, 18, 5);
    all[0][7] = 0;
    all.remove(2);
    assert_faults(&all, 11, 2);
}

#[test]
fn line_numbers_follow_the_number_of_types() {
    for types in [1, 2, 39, 40] {
        let items = vec![[1, 1, 1]; types];
        let mut text = job_text(&job(Mode::TwoNonExact, [2, 1], &items));
        text.extend(line(GOOD));
        text.extend(line(&[7, 1, 0, 1, 2, 1, 1, 0, 0, 0]));
        let place = types as u32 + 4;
        assert_text(&fold_text(&text), &refusal(18, place));
    }
}

#[test]
fn more_than_4_000_lines_are_10_after_the_line_row() {
    let words = job(Mode::TwoNonExact, [5, 4], &[[5, 4, 1]]);
    let boards: Vec<[u16; 9]> = (1..=4_000)
        .map(|board| [board, 0, 1, 1, 1, 1, 0, 0, 0])
        .collect();
    let mut text = job_text(&words);
    text.extend(layout_text(&boards));
    assert_text(&fold_text(&text), &line(&[3, 0, 1, 4_000, 5, 4, 1, 0]));
    text.extend(line(GOOD));
    assert_text(&fold_text(&text), &refusal(10, 0));
    let mut outside = text.clone();
    outside.extend(line(&[7, 1, 0, 1, 1, 1, 2, 0, 0, 0]));
    assert_text(&fold_text(&outside), &refusal(2, 4_005));
    text.push(b'7');
    assert_text(&fold_text(&text), &refusal(1, 4_005));
}

#[test]
fn the_output_is_the_counted_cuts_in_rising_order() {
    let layouts = [
        [1, 0, 1, 1, 1, 2, 0, 0, 0],
        [2, 0, 1, 1, 1, 2, 0, 0, 0],
        [2, 0, 1, 2, 1, 1, 3, 0, 0],
        [2, 0, 2, 1, 1, 2, 0, 4, 0],
        [3, 0, 1, 1, 1, 1, 0, 0, 0],
    ];
    let mut text = job_text(&job_a());
    text.extend(layout_text(&layouts));
    let expected = lines(&[
        &[3, 0, 1, 2, 9, 7, 1, 0],
        &[3, 0, 2, 1, 9, 7, 1, 0],
        &[3, 1, 2, 1, 9, 3, 1, 0],
        &[3, 2, 2, 1, 4, 4, 2, 0],
    ]);
    assert_text(&fold_text(&text), &expected);
}
