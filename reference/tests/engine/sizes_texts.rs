//! Several board sizes in texts (document 02, Six): lines of kind 10, line 6 from t on, line 7 with its
//! size, line 8 with the cost.

use crate::common::jobs::{job_on, job_on_sizes};
use crate::common::lent::Lent;
use crate::common::texts::{
    assert_text, job_text, layout_text, line, lines, plan_text_of, refusal,
};
use reference::{fold_text, saw_text, Mode};

/// Line 1 of two sizes and one type.
const HEAD: &[u32] = &[1, 2, 0, 2, 1, 0];
const SIZE_0: &[u32] = &[10, 0, 9, 7, 5];
const SIZE_1: &[u32] = &[10, 1, 3, 3, 1];
const TYPE: &[u32] = &[2, 1, 3, 3, 2, 0];

/// Both texts of these lines are refused so.
#[track_caller]
fn assert_refused(all: &[&[u32]], number: u32, place: u32) {
    let text = lines(all);
    assert_text(&saw_text(&text), &refusal(number, place));
    assert_text(&fold_text(&text), &refusal(number, place));
}

#[test]
fn lines_10_stand_between_line_1_and_lines_2_in_order() {
    assert_refused(&[HEAD], 1, 2);
    assert_refused(&[HEAD, SIZE_0], 1, 3);
    assert_refused(&[HEAD, SIZE_0, SIZE_1], 1, 4);
    assert_refused(&[HEAD, SIZE_0, SIZE_1, TYPE], 11, 1);
    assert_refused(&[HEAD, SIZE_1, SIZE_0, TYPE], 1, 2);
    assert_refused(&[HEAD, SIZE_0, SIZE_0, TYPE], 1, 3);
    // One too few, one too many, and one after the types.
    assert_refused(&[HEAD, SIZE_0, TYPE], 1, 3);
    assert_refused(&[HEAD, SIZE_0, SIZE_1, &[10, 2, 3, 3, 1], TYPE], 1, 4);
    assert_refused(&[HEAD, SIZE_0, SIZE_1, TYPE, &[10, 2, 3, 3, 1]], 1, 5);
    assert_refused(&[SIZE_0, HEAD], 1, 1);
    assert_refused(&[HEAD, TYPE], 1, 2);
}

#[test]
fn a_sizes_number_out_of_order_is_1_never_2() {
    for wrong in [1, 2, 6, 7, 65_536, 999_999_999] {
        assert_refused(&[HEAD, &[10, wrong, 9, 7, 5]], 1, 2);
        assert_refused(&[HEAD, &[10, wrong, 0, 0, 0]], 1, 2);
    }
    for wrong in [0, 2, 999_999_999] {
        assert_refused(&[HEAD, SIZE_0, &[10, wrong, 9, 7, 1_000]], 1, 3);
    }
}

#[test]
fn values_of_a_size_outside_their_limits_are_2_naming_the_line() {
    for (index, outside) in [
        (2, 0),
        (2, 10_001),
        (3, 0),
        (3, 10_001),
        (4, 0),
        (4, 1_000),
        (4, 65_537),
        (4, 999_999_999),
    ] {
        let mut size = [10, 0, 9, 7, 5];
        size[index] = outside;
        assert_refused(&[HEAD, &size], 2, 2);
        // Line by line: before a fault of a later line.
        assert_refused(&[HEAD, &size, SIZE_0, TYPE], 2, 2);
        size[1] = 1;
        assert_refused(&[HEAD, SIZE_0, &size], 2, 3);
    }
    for groups in [&SIZE_0[..4], &[10, 0, 9, 7, 5, 0]] {
        assert_refused(&[HEAD, groups, SIZE_1, TYPE], 1, 2);
    }
}

#[test]
fn line_1_has_t_in_place_of_w_and_h() {
    for sizes in [0, 7, 8, 999_999_999] {
        assert_refused(&[&[1, 2, 0, sizes, 1, 0], SIZE_0, SIZE_1, TYPE], 2, 1);
    }
    assert_eq!(line(HEAD).len(), 55);
    assert_eq!(line(SIZE_0).len(), 46);
    // Six sizes, the last of them dear.
    let mut all = vec![&[1, 2, 0, 6, 1, 0][..]];
    let sizes: Vec<[u32; 5]> = (0..6).map(|size| [10, size, 9, 7, 999]).collect();
    all.extend(sizes.iter().map(|size| &size[..]));
    all.push(TYPE);
    assert_refused(&all, 11, 1);
    assert_refused(&all[..7], 1, 8);
}

/// Sizes of 9 by 7 at 3 and 9 by 3 at 1, job A's items: case 6a.
fn case_a() -> Vec<u16> {
    job_on_sizes(
        Mode::TwoNonExact,
        &[[9, 7, 3], [9, 3, 1]],
        &[[5, 4, 2], [3, 3, 3]],
    )
}

#[test]
fn lines_3_show_a_size_with_stage_1_and_without_its_cost() {
    let words = case_a();
    let plan = lines(&[
        &[3, 0, 1, 2, 9, 7, 1, 0],
        &[3, 1, 2, 1, 9, 3, 1, 0],
        &[3, 3, 2, 2, 4, 4, 2, 0],
    ]);
    assert_text(&plan, &plan_text_of(&words, &[2, 0, 1, 0, 2, 0, 0, 0, 0]));
    let layouts: [[u16; 9]; 5] = [
        [1, 0, 1, 1, 1, 1, 0, 0, 0],
        [1, 0, 1, 2, 1, 2, 5, 0, 0],
        [2, 0, 1, 1, 1, 1, 0, 0, 0],
        [2, 0, 1, 2, 1, 2, 5, 0, 0],
        [3, 1, 1, 1, 1, 2, 0, 0, 0],
    ];
    let placed = layout_text(&layouts);
    assert_eq!(placed.len(), 5 * 91);
    let expected = [placed.clone(), line(&[8, 7, 0, 1, 0])].concat();
    assert_text(
        &saw_text(&[job_text(&words), plan.clone()].concat()),
        &expected,
    );
    assert_text(&fold_text(&[job_text(&words), placed].concat()), &plan);
    // Plate type 2 has the sides of size 1: the line is the same but for its number, and no 20.
    let on = |plate| {
        let second = [3, plate, 2, 1, 9, 3, 1, 0];
        let plan = lines(&[
            &[3, 0, 1, 2, 9, 7, 1, 0],
            &second,
            &[3, 3, 2, 2, 4, 4, 2, 0],
        ]);
        saw_text(&[job_text(&words), plan].concat())
    };
    assert_text(&on(1), &expected);
    let last = line(&[8, 6, 0, 1, 0]);
    assert!(on(2).ends_with(&last));
    // The cost in place of the stage is 20.
    let shown = lines(&[&[3, 0, 1, 2, 9, 7, 3, 0]]);
    assert_text(
        &saw_text(&[job_text(&words), shown].concat()),
        &refusal(20, 6),
    );
}

#[test]
fn lines_6_name_plate_numbers_from_t_on() {
    let words = case_a();
    let plan = plan_text_of(&words, &[2, 0, 1, 0, 2, 0, 0, 0, 0]);
    let text = |first: u32| {
        let mut text = [job_text(&words), plan.clone()].concat();
        text.extend(lines(&[&[4, 1, 2, 5], &[5, 1, 1], &[5, 2, 0]]));
        for number in first..first + 5 {
            // The third of them is 9 by 4, from which the first type can be cut.
            text.extend(line(&[6, number, u32::from(number == first + 2)]));
        }
        saw_text(&text)
    };
    assert!(text(2).ends_with(&line(&[8, 7, 2, 1, 0])));
    // The job has five lines, the plan three, then 4, 5, 5: the first line 6 is line 12.
    assert_text(&text(1), &refusal(1, 12));
    assert_text(&text(0), &refusal(1, 12));
    assert_text(&text(3), &refusal(1, 12));
    // As many as line 4 says, up to 2,047, whatever the numbers come to; then 13.
    let mut many = [job_text(&words), plan.clone()].concat();
    many.extend(lines(&[&[4, 1, 2, 2_047], &[5, 1, 1], &[5, 2, 0]]));
    many.extend((2..2_049).flat_map(|number| line(&[6, number, 0])));
    assert_text(&saw_text(&many), &refusal(13, 0));
}

#[test]
fn line_8_gives_the_cost_and_whether_it_is_the_cheapest() {
    let words = job_on_sizes(Mode::TwoNonExact, &[[3, 3, 999]], &[[3, 3, 4_000]]);
    let text = |denominator: u32| {
        let mut text = job_text(&words);
        text.extend(line(&[3, 0, 1, 4_000, 3, 3, 1, 0]));
        text.extend(lines(&[&[4, denominator, 1, 0], &[5, 1, 9_999]]));
        saw_text(&text)
    };
    let last = |numbers: [u32; 5]| line(&numbers);
    assert!(text(9_999).ends_with(&last([8, 3_996_000, 39_996_000, 9_999, 0])));
    assert!(text(1_075).ends_with(&last([8, 3_996_000, 39_996_000, 1_075, 0])));
    assert_eq!(text(9_999).len(), 4_000 * 91 + 46);
    // Without prices never.
    let mut text = job_text(&words);
    text.extend(line(&[3, 0, 1, 4_000, 3, 3, 1, 0]));
    assert!(saw_text(&text).ends_with(&last([8, 3_996_000, 0, 1, 0])));
    // A cost that the bound reaches, on the dearer of two sizes.
    let words = job_on_sizes(Mode::TwoNonExact, &[[9, 7, 9], [1, 1, 1]], &[[9, 7, 2]]);
    let mut text = job_text(&words);
    text.extend(line(&[3, 0, 1, 2, 9, 7, 1, 0]));
    text.extend(lines(&[&[4, 7, 1, 0], &[5, 1, 63]]));
    assert!(saw_text(&text).ends_with(&last([8, 18, 126, 7, 1])));
}

#[test]
fn a_size_on_line_7_is_judged_as_in_words_but_line_by_line() {
    let words = job_on_sizes(Mode::TwoNonExact, &[[9, 7, 5], [3, 3, 1]], &[[3, 3, 2]]);
    let text = |layouts: &[[u16; 9]]| fold_text(&[job_text(&words), layout_text(layouts)].concat());
    let first = [1, 1, 1, 1, 1, 1, 0, 0, 0];
    assert_text(
        &text(&[first, [1, 0, 1, 2, 1, 1, 3, 0, 0]]),
        &refusal(15, 6),
    );
    assert_text(&text(&[first, [2, 2, 1, 1, 1, 1, 0, 0, 0]]), &refusal(2, 6));
    assert_text(
        &text(&[first, [1, 1, 1, 2, 1, 1, 3, 0, 0]]),
        &refusal(17, 5),
    );
    let expected = lines(&[&[3, 0, 1, 1, 9, 7, 1, 0], &[3, 1, 1, 1, 3, 3, 1, 0]]);
    assert_text(&text(&[first, [2, 0, 1, 1, 1, 1, 0, 0, 0]]), &expected);
    // 19 on line 5 goes before a size outside its limits on line 6; in words it is the other way.
    let layouts = [[1, 0, 1, 1, 1, 1, 0, 0, 1], [2, 2, 1, 1, 1, 1, 0, 0, 0]];
    assert_text(&text(&layouts), &refusal(19, 5));
    let answer = Lent::new().fold(&words, &layouts).unwrap_err();
    assert_eq!((answer.number, answer.place), (2, 2));
}

#[test]
fn the_job_row_of_a_text_looks_at_every_size() {
    let words = job_on(
        Mode::ThreeNonExact,
        &[[9, 7, 1], [7, 9, 1]],
        3,
        &[[9, 8, 1, 1]],
    );
    assert_text(&saw_text(&job_text(&words)), &refusal(3, 1));
    let words = job_on(
        Mode::ThreeNonExact,
        &[[9, 7, 1], [8, 9, 1]],
        3,
        &[[9, 8, 1, 1]],
    );
    assert_text(&saw_text(&job_text(&words)), &refusal(11, 1));
}
