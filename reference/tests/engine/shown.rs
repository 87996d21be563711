//! Plan lines that show their plate (document 02, Five): the worked cases, and wrong readings that
//! they shut out.

use crate::common::check;
use crate::common::jobs::{job, job_a, job_with_leave, random_job, words_of, PLAN_A};
use crate::common::plain;
use crate::common::plans::random_plan;
use crate::common::random::Random;
use crate::common::sets::random_set;
use crate::common::texts::{
    after_job_a, assert_text, job_text, layout_text, line, lines, plan_text_of, refusal,
};
use reference::listing::FULL;
use reference::{fold_text, saw_text, Listing, Mode};

/// The plan of job A as lines of kind 3.
const PLAN: [[u32; 8]; 4] = [
    [3, 0, 1, 2, 9, 7, 1, 0],
    [3, 1, 2, 1, 9, 3, 1, 0],
    [3, 2, 2, 1, 4, 4, 2, 0],
    [3, 4, 2, 1, 6, 3, 2, 0],
];

/// The groups of a line of kind 3 that show its plate: width, height and stage.
const SHOWN: [usize; 3] = [4, 5, 6];

/// Numbers of nine columns that are none of a plate of job A, but those that 16 bits take for one.
const NEVER: [u32; 8] = [
    0,
    10,
    10_001,
    65_535,
    65_536,
    131_072,
    99_999_999,
    999_999_999,
];

/// The answer to job A's first four lines and these.
fn answer(plan: &[[u32; 8]]) -> Vec<u8> {
    let all: Vec<&[u32]> = plan.iter().map(|line| &line[..]).collect();
    saw_text(&after_job_a(&all))
}

/// The answer to job A's first four lines and these is this refusal.
#[track_caller]
fn assert_refused(plan: &[[u32; 8]], number: u32, place: u32) {
    assert_text(&answer(plan), &refusal(number, place));
}

/// Job A's plan with one number of one line replaced, both counted from 0.
fn with(index: usize, group: usize, number: u32) -> [[u32; 8]; 4] {
    let mut plan = PLAN;
    plan[index][group] = number;
    plan
}

#[test]
fn a_line_shows_width_height_and_stage_after_the_count_and_ends_with_the_turn() {
    let accepted = answer(&PLAN);
    assert_text(&accepted[..9], b"        7");
    assert_eq!(line(&PLAN[0]).len(), 73);
    assert_text(
        &plan_text_of(&job_a(), &PLAN_A),
        &PLAN.map(|numbers| line(&numbers)).concat(),
    );
    // An item of 3 by 5 turned on a board of 5 by 3: the plate's sides are shown, not the item's,
    // and the turn comes last.
    let words = job_with_leave(Mode::TwoNonExact, [5, 3], &[[3, 5, 1, 1]]);
    let text = |numbers: [u32; 8]| [job_text(&words), line(&numbers)].concat();
    let expected = lines(&[&[7, 1, 0, 1, 1, 1, 1, 0, 0, 1], &[8, 1, 0, 1, 0]]);
    assert_text(&saw_text(&text([3, 0, 1, 1, 5, 3, 1, 1])), &expected);
    assert_text(&saw_text(&text([3, 0, 1, 1, 3, 5, 1, 1])), &refusal(20, 4));
    // The turn before the three numbers is taken for a width of 1, and the stage for a turn of 1.
    assert_text(&saw_text(&text([3, 0, 1, 1, 1, 5, 3, 1])), &refusal(20, 4));
}

#[test]
fn each_of_the_three_alone_is_20() {
    for (index, numbers) in PLAN.iter().enumerate() {
        let place = index as u32 + 5;
        for group in SHOWN {
            for other in [numbers[group] - 1, numbers[group] + 1] {
                assert_refused(&with(index, group, other), 20, place);
            }
        }
    }
    // The stage alone: of a strip's plate, and of the board.
    assert_refused(&with(3, 6, 1), 20, 8);
    assert_refused(&with(0, 6, 2), 20, 5);
    assert_refused(&with(0, 6, 3), 20, 5);
}

#[test]
fn numbers_are_compared_before_they_are_narrowed() {
    for (index, numbers) in PLAN.iter().enumerate() {
        for group in SHOWN {
            for wraps in [65_536, 131_072, 65_536 * 15_258] {
                let place = index as u32 + 5;
                assert_refused(&with(index, group, numbers[group] + wraps), 20, place);
            }
        }
    }
    // 65,545 for a width of 9.
    assert_refused(&with(0, 4, 65_545), 20, 5);
    // All three at once.
    let mut plan = PLAN;
    plan[0] = [3, 0, 1, 2, 65_545, 65_543, 65_537, 0];
    assert_refused(&plan, 20, 5);
}

#[test]
fn the_three_have_no_limits_of_their_own() {
    for group in SHOWN {
        for number in NEVER {
            assert_refused(&with(1, group, number), 20, 6);
        }
        // A number that ten columns would take is not of the form.
        let mut text = after_job_a(&[]);
        let whole = line(&PLAN[0]);
        text.extend(&whole[..9 * group]);
        text.extend(b"1000000000");
        text.extend(&whole[9 * group + 9..]);
        assert_text(&saw_text(&text), &refusal(1, 5));
    }
    let mut plan = PLAN;
    plan[2] = [3, 2, 2, 1, 999_999_999, 999_999_999, 999_999_999, 0];
    assert_refused(&plan, 20, 7);
}

#[test]
fn the_same_cut_twice_with_a_wrong_width_on_the_second_line_is_20() {
    let twice = |width| [[3, 0, 1, 1, 9, 7, 1, 0], [3, 0, 1, 1, width, 7, 1, 0]];
    assert_refused(&twice(8), 20, 6);
    assert_refused(&twice(9), 9, 6);
}

#[test]
fn a_line_that_names_no_cut_is_8_whatever_it_shows() {
    // Plate 1 exists, and type 1 is no cut there; plate 6 does not exist.
    for shown in [[9, 3, 1], [9, 3, 2], [1, 1, 1], [0, 0, 0], [65_545, 3, 1]] {
        let [w, h, stage] = shown;
        assert_refused(&[[3, 1, 1, 1, w, h, stage, 0]], 8, 5);
        assert_refused(&[[3, 6, 1, 1, w, h, stage, 0]], 8, 5);
        // Also after a line that is 20, and before one.
        let other = [3, 0, 1, 1, 9, 7, 2, 0];
        assert_refused(&[other, [3, 1, 1, 1, w, h, stage, 0]], 8, 6);
        assert_refused(&[[3, 1, 1, 1, w, h, stage, 0], other], 8, 5);
    }
}

#[test]
fn a_line_20_goes_before_9_on_an_earlier_line() {
    let falling = [[3, 0, 2, 1, 9, 7, 1, 0], [3, 0, 1, 1, 9, 7, 1, 0]];
    assert_refused(&falling, 9, 6);
    let later = [3, 1, 2, 1, 9, 3, 2, 0];
    assert_refused(&[falling[0], falling[1], later], 20, 7);
    // The three of the row: 8 on line 7, 20 on line 6, 9 on line 5.
    let none = [3, 1, 1, 1, 9, 3, 1, 0];
    assert_refused(&[falling[0], falling[1], later, none], 8, 8);
}

#[test]
fn the_lowest_line_is_named() {
    let mut plan = PLAN;
    plan[3][6] = 3;
    assert_refused(&plan, 20, 8);
    plan[1][5] = 4;
    assert_refused(&plan, 20, 6);
    plan[2][4] = 5;
    assert_refused(&plan, 20, 6);
}

#[test]
fn the_line_row_goes_before_20() {
    let shows_other = [3, 0, 1, 1, 1, 1, 1, 0];
    // 2 on a later line, and on the same line for the numbers that have limits.
    assert_refused(&[shows_other, [3, 0, 1, 0, 9, 7, 1, 0]], 2, 6);
    assert_refused(&[[3, 0, 3, 1, 1, 1, 1, 0]], 2, 5);
    assert_refused(&[[3, 2_048, 1, 1, 1, 1, 1, 0]], 2, 5);
    assert_refused(&[[3, 0, 1, 1, 1, 1, 1, 2]], 2, 5);
    // 19 on a later line, and on the same.
    assert_refused(&[shows_other, [3, 0, 2, 1, 9, 7, 1, 1]], 19, 6);
    assert_refused(&[[3, 0, 1, 1, 1, 1, 1, 1]], 19, 5);
    // 1 at the end of the text.
    let text = [after_job_a(&[&shows_other]), b" ".to_vec()].concat();
    assert_text(&saw_text(&text), &refusal(1, 6));
    let prices = [after_job_a(&[&shows_other]), line(&[4, 1, 1, 0])].concat();
    assert_text(&saw_text(&prices), &refusal(1, 7));
}

#[test]
fn job_and_model_rows_go_before_20_and_the_rest_of_the_plan_row_after_it() {
    let shows_other = line(&[3, 0, 1, 4_000, 1, 1, 1, 0]);
    let refused_before: [(Vec<u16>, [u32; 2]); 4] = [
        (job(Mode::TwoNonExact, [9, 7], &[[10, 4, 2]]), [3, 1]),
        (
            job(Mode::TwoNonExact, [9, 7], &[[5, 4, 4_000], [3, 3, 1]]),
            [4, 0],
        ),
        (job(Mode::TwoNonExact, [10_000, 9], &[[1, 1, 1]]), [6, 0]),
        (job(Mode::TwoNonExact, [105, 101], &[[1, 1, 1]; 40]), [7, 0]),
    ];
    for (words, [number, place]) in refused_before {
        let text = [job_text(&words), shows_other.clone()].concat();
        assert_text(&saw_text(&text), &refusal(number, place));
    }
    // Too many, too few and overdrawn, each with a line that shows another plate.
    let many = [[3, 0, 1, 4_000, 9, 7, 2, 0], [3, 5, 2, 1, 3, 3, 2, 0]];
    assert_refused(&many, 20, 5);
    assert_refused(&[[3, 0, 1, 1, 9, 7, 2, 0]], 20, 5);
    assert_refused(&[[3, 0, 1, 3, 9, 7, 1, 0], [3, 2, 2, 4, 4, 3, 2, 0]], 20, 6);
    // Prices that are not the model's.
    let mut text = after_job_a(&[&with(0, 4, 8)[0]]);
    text.extend(lines(&[&[4, 1, 1, 0], &[5, 1, 9_999]]));
    assert_text(&saw_text(&text), &refusal(20, 5));
}

#[test]
fn another_numbering_of_the_same_plates_is_found_out() {
    // Plates 1 and 4 of job A exchanged: both exist, and type 2 may be cut from both.
    let exchanged = [
        PLAN[0],
        [3, 1, 2, 1, 6, 3, 2, 0],
        PLAN[2],
        [3, 4, 2, 1, 9, 3, 1, 0],
    ];
    assert_refused(&exchanged, 20, 6);
    // Right entered before top: plate 1 is (4, 4, 2) and plate 2 is (9, 3, 1).
    let right_first = [
        PLAN[0],
        [3, 1, 2, 1, 4, 4, 2, 0],
        [3, 2, 2, 1, 9, 3, 1, 0],
        PLAN[3],
    ];
    assert_refused(&right_first, 20, 6);
}

/// The numbers of a line, the kind first.
fn numbers_of(line: &[u8]) -> Vec<u32> {
    let groups = line[..line.len() - 1].chunks(9);
    let number = |group| String::from_utf8_lossy(group).trim().parse().unwrap();
    groups.map(number).collect()
}

#[test]
fn a_line_under_another_plates_number_is_8_or_20() {
    // No two residual types have the same width, height and stage; a size may have those of another or
    // of a residual type, and under its number the line then shows what it should.
    let mut random = Random::new(81);
    let [mut no_cut, mut other_plate] = [0, 0];
    for _ in 0..3_000 {
        let structured = random_job(&mut random);
        let words = words_of(&structured);
        let listing = Listing::walk(&structured, FULL).unwrap();
        let (plates, cuts) = plain::listing(&words);
        let plan = plan_text_of(&words, &random_plan(&mut random, &structured, &listing));
        let mut plan: Vec<Vec<u8>> = plan.chunks(73).map(<[u8]>::to_vec).collect();
        let index = random.below(plan.len());
        let mut numbers = numbers_of(&plan[index]);
        let moved = random.below(plates.len() + 1) as u32;
        if plates.get(moved as usize) == Some(&plates[numbers[1] as usize]) {
            continue;
        }
        numbers[1] = moved;
        plan[index] = line(&numbers);
        let named = [moved, 2 * numbers[2] + numbers[7]].map(|number| number as u16);
        let is_cut = cuts.iter().any(|cut| cut[..2] == named);
        let (number, met) = match is_cut {
            true => (20, &mut other_plate),
            false => (8, &mut no_cut),
        };
        *met += 1;
        let place = structured.sizes.len() + structured.items.len() + 2 + index;
        let answer = saw_text(&[job_text(&words), plan.concat()].concat());
        assert_text(&answer, &refusal(number, place as u32));
    }
    assert!(no_cut > 300 && other_plate > 300, "{no_cut}, {other_plate}");
}

#[test]
fn what_folding_writes_after_the_jobs_lines_is_an_accepted_saw_text() {
    let mut random = Random::new(82);
    let mut stages = [0; 4];
    for _ in 0..3_000 {
        let structured = random_job(&mut random);
        let words = words_of(&structured);
        let set = random_set(&mut random, &structured);
        let head = job_text(&words);
        let layouts = check::lines(&structured, &set);
        let plan = fold_text(&[head.clone(), layout_text(&layouts)].concat());
        let (plates, _) = plain::listing(&words);
        for written in plan.chunks(73) {
            let numbers = numbers_of(written);
            let plate = plates[numbers[1] as usize].map(u32::from);
            assert_eq!((numbers[0], &numbers[4..7]), (3, &plate[..]));
            stages[plate[2] as usize] += 1;
        }
        let answer = saw_text(&[head.clone(), plan.clone()].concat());
        let (placed, last) = answer.split_at(91 * layouts.len());
        let cost = check::cost_of(
            &structured,
            &check::boards_of_sizes(&structured, &layouts, false),
        );
        assert_text(last, &line(&[8, cost, 0, 1, 0]));
        // And its placements fold into the same lines.
        assert_text(&fold_text(&[head, placed.to_vec()].concat()), &plan);
    }
    assert!(stages[1..].iter().all(|&lines| lines > 200), "{stages:?}");
}
