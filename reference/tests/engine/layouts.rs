//! Layout words: lengths, limits, turn, stage rule, edges and positions (document 01, "Layouts
//! and folding", first paragraph, and the table's last row).

use crate::common::boards;
use crate::common::jobs::{job, job_a};
use crate::common::lent::Lent;
use crate::common::{board, board_of, refused, strip as strip_of};
use reference::layout::{keeps_rules, keeps_stage_rule, placements};
use reference::{Job, Mode, Placement};

/// Job A's plan as layout lines.
const LINES_A: [[u16; 9]; 5] = [
    [1, 0, 1, 1, 1, 1, 0, 0, 0],
    [1, 0, 1, 2, 1, 2, 5, 0, 0],
    [1, 0, 2, 1, 1, 2, 0, 4, 0],
    [1, 0, 2, 2, 1, 2, 3, 4, 0],
    [2, 0, 1, 1, 1, 1, 0, 0, 0],
];

#[test]
fn a_line_cut_short_names_itself() {
    let words = LINES_A.concat();
    for length in 0..words.len() {
        let answer = Lent::new().fold_words(&job_a(), &words[..length]);
        if length % 9 == 0 {
            assert!(answer.is_err_and(|refusal| refusal.number == 11));
        } else {
            assert_eq!(answer, refused(1, length as u32 / 9 + 1));
        }
    }
    assert_eq!(Lent::new().fold_words(&job_a(), &words), boards(2));
}

#[test]
fn values_outside_their_limits_name_the_line() {
    let bad = [(0, 0), (1, 1), (2, 0), (3, 0), (4, 0), (5, 0), (5, 3)];
    let high = [
        (0, 4_001),
        (1, 65_535),
        (2, 4_001),
        (3, 4_001),
        (4, 4_001),
        (6, 10_001),
        (7, 10_001),
        (8, 2),
        (8, 65_535),
    ];
    for (column, value) in bad.into_iter().chain(high) {
        let mut lines = LINES_A;
        lines[3][column] = value;
        assert_eq!(Lent::new().fold(&job_a(), &lines), refused(2, 4));
    }
    let mut lines = LINES_A;
    lines[4] = [65_535; 9];
    lines[2][5] = 65_535;
    assert_eq!(Lent::new().fold(&job_a(), &lines), refused(2, 3));
}

#[test]
fn the_limits_are_4_000_and_10_000_not_the_boards_sides() {
    for (column, value, number) in [
        (6, 10_000, 18),
        (7, 10_000, 18),
        (0, 4_000, 15),
        (4, 4_000, 15),
    ] {
        let mut lines = LINES_A;
        lines[1][column] = value;
        assert_eq!(Lent::new().fold(&job_a(), &lines), refused(number, 2));
    }
}

#[test]
fn the_first_line_is_1_1_1_1() {
    for turn in [[2, 1, 1, 1], [1, 2, 1, 1], [1, 1, 2, 1], [1, 1, 1, 2]] {
        let line = [turn[0], 0, turn[1], turn[2], turn[3], 1, 0, 0, 0];
        assert_eq!(Lent::new().fold(&job_a(), &[line]), refused(15, 1));
    }
}

#[test]
fn four_turns_follow_a_line_and_no_other() {
    let words = job(Mode::ThreeNonExact, [9, 9], &[[1, 1, 1]]);
    let start = [
        [1, 0, 1, 1, 1, 1, 0, 0, 0],
        [2, 0, 1, 1, 1, 1, 0, 0, 0],
        [2, 0, 2, 1, 1, 1, 0, 1, 0],
        [2, 0, 2, 2, 1, 1, 1, 1, 0],
        [2, 0, 2, 2, 2, 1, 1, 2, 0],
    ];
    let follow = [[2, 2, 2, 3], [2, 2, 3, 1], [2, 3, 1, 1], [3, 1, 1, 1]];
    for index in 0..4_usize.pow(4) {
        let turn = [64, 16, 4, 1].map(|unit| (index / unit % 4) as u16 + 1);
        let mut lines = start.to_vec();
        lines.push([turn[0], 0, turn[1], turn[2], turn[3], 1, 0, 0, 0]);
        let refusal = Lent::new().fold(&words, &lines).unwrap_err();
        let in_turn = follow.contains(&turn);
        assert_eq!(refusal.number == 15, !in_turn, "{turn:?}");
        assert!(in_turn || refusal.place == 6);
    }
}

#[test]
fn the_first_line_out_of_turn_is_named() {
    let mut lines = LINES_A;
    lines[1][3] = 3;
    lines[3][3] = 4;
    assert_eq!(Lent::new().fold(&job_a(), &lines), refused(15, 2));
}

/// Lines of one strip on one board with its true positions.
fn strip_lines(words: &[u16], strip: &[&[u16]]) -> Vec<[u16; 9]> {
    let structured = Job::from_words(words).unwrap();
    let placed = placements(&structured, &[board(&[strip])]);
    placed.iter().map(Placement::words).collect()
}

/// Types: 1 is 2 by 4, 2 is 2 by 2, 3 is 3 by 2, 4 is 1 by 4, all demanded once.
fn mixed(mode: Mode) -> Vec<u16> {
    let items = [[2, 4, 1], [2, 2, 1], [3, 2, 1], [1, 4, 1]];
    job(mode, [12, 12], &items)
}

/// Which modes a strip's stage rule admits, in the order 2E, 2N, 3E, 3N.
fn assert_stage_rule(strip: &[&[u16]], admitted: [bool; 4]) {
    for (mode, admits) in Mode::ALL.into_iter().zip(admitted) {
        let words = mixed(mode);
        let refusal = Lent::new().fold(&words, &strip_lines(&words, strip));
        let number = refusal.map_or_else(|refusal| refusal.number, |_| 0);
        assert_eq!(number == 16, !admits, "{strip:?} in {mode:?}: {number}");
        let structured = Job::from_words(&words).unwrap();
        assert_eq!(keeps_stage_rule(&structured, &strip_of(strip)), admits);
    }
}

#[test]
fn the_stage_rule_of_each_mode() {
    assert_stage_rule(&[&[1], &[4]], [true, true, true, true]);
    assert_stage_rule(&[&[2], &[3], &[2]], [true, true, true, true]);
    // Single items of two heights: not 2E.
    assert_stage_rule(&[&[1], &[2]], [false, true, true, true]);
    assert_stage_rule(&[&[2], &[1]], [false, true, true, true]);
    // A stack of two of one width beside a single item of the strip's height: three stages.
    assert_stage_rule(&[&[2, 2], &[1]], [false, false, true, true]);
    assert_stage_rule(&[&[1], &[2, 2]], [false, false, true, true]);
    // A stack of two widths: 3N alone.
    assert_stage_rule(&[&[1], &[2, 3]], [false, false, false, true]);
    assert_stage_rule(&[&[1], &[3, 2]], [false, false, false, true]);
    // Stacks of different widths, each of one width: 3E as well.
    assert_stage_rule(&[&[3, 3], &[4], &[2, 2]], [false, false, true, true]);
    // No single item of the strip's height: no mode.
    assert_stage_rule(&[&[2, 2]], [false; 4]);
    assert_stage_rule(&[&[1], &[2, 2, 2]], [false; 4]);
    assert_stage_rule(&[&[2], &[2, 2]], [false; 4]);
    assert_stage_rule(&[&[1], &[2, 1]], [false; 4]);
}

#[test]
fn a_strip_that_breaks_the_rule_is_named_by_its_first_line() {
    let words = mixed(Mode::ThreeExact);
    let lines = [
        [1, 0, 1, 1, 1, 1, 0, 0, 0],
        [1, 0, 1, 2, 1, 2, 2, 0, 0],
        [1, 0, 2, 1, 1, 1, 0, 4, 0],
        [1, 0, 2, 2, 1, 2, 2, 4, 0],
        [1, 0, 2, 2, 2, 3, 2, 6, 0],
        [2, 0, 1, 1, 1, 2, 0, 0, 0],
        [2, 0, 1, 1, 2, 2, 0, 2, 0],
    ];
    assert_eq!(Lent::new().fold(&words, &lines), refused(16, 3));
    assert_eq!(Lent::new().fold(&words, &lines[..3]), refused(11, 3));
    let mut swapped = lines;
    swapped[4] = [1, 0, 2, 2, 2, 2, 2, 6, 0];
    assert_eq!(Lent::new().fold(&words, &swapped), refused(16, 6));
}

#[test]
fn a_strip_wider_than_the_board_is_named() {
    let words = mixed(Mode::TwoNonExact);
    let mut lines = strip_lines(&words, &[&[3], &[3], &[3], &[3]]);
    assert_eq!(Lent::new().fold(&words, &lines), refused(11, 1));
    lines.push([1, 0, 1, 5, 1, 4, 12, 0, 0]);
    assert_eq!(Lent::new().fold(&words, &lines), refused(17, 1));
    lines.insert(0, [1, 0, 1, 1, 1, 1, 0, 0, 0]);
    for line in &mut lines[1..] {
        line[2] = 2;
    }
    assert_eq!(Lent::new().fold(&words, &lines), refused(17, 2));
}

#[test]
fn the_lowest_strip_whose_own_top_edge_is_too_high_is_named() {
    let words = mixed(Mode::TwoNonExact);
    let strip = |number: u16, y: u16| [1, 0, number, 1, 1, 1, 0, y, 0];
    let high = [
        strip(1, 0),
        strip(2, 4),
        strip(3, 8),
        strip(4, 10_000),
        strip(5, 0),
    ];
    assert_eq!(Lent::new().fold(&words, &high[..3]), refused(11, 2));
    assert_eq!(Lent::new().fold(&words, &high[..4]), refused(17, 4));
    assert_eq!(Lent::new().fold(&words, &high), refused(17, 4));
    // The heights of another board start again from 0.
    let mut two_boards = high[..3].to_vec();
    two_boards.push([2, 0, 1, 1, 1, 1, 0, 0, 0]);
    assert_eq!(Lent::new().fold(&words, &two_boards), refused(11, 2));
}

#[test]
fn too_wide_and_too_high_are_one_number_for_the_lower_strip() {
    let words = job(Mode::TwoNonExact, [4, 4], &[[3, 3, 1]]);
    let wide_then_high = [
        [1, 0, 1, 1, 1, 1, 0, 0, 0],
        [1, 0, 1, 2, 1, 1, 3, 0, 0],
        [1, 0, 2, 1, 1, 1, 0, 3, 0],
    ];
    assert_eq!(Lent::new().fold(&words, &wide_then_high), refused(17, 1));
    let high_then_wide = [
        [1, 0, 1, 1, 1, 1, 0, 0, 0],
        [1, 0, 2, 1, 1, 1, 0, 3, 0],
        [1, 0, 3, 1, 1, 1, 0, 6, 0],
        [1, 0, 3, 2, 1, 1, 3, 6, 0],
    ];
    assert_eq!(Lent::new().fold(&words, &high_then_wide), refused(17, 2));
}

#[test]
fn the_written_positions_play_no_part_in_16_and_17() {
    let words = mixed(Mode::ThreeNonExact);
    let lines = [
        [1, 0, 1, 1, 1, 1, 9_000, 9_000, 0],
        [1, 0, 1, 2, 1, 2, 10_000, 0, 0],
        [1, 0, 1, 2, 2, 3, 0, 10_000, 0],
    ];
    assert_eq!(Lent::new().fold(&words, &lines), refused(18, 1));
}

#[test]
fn sums_past_a_word_are_still_past_the_board() {
    let words = job(Mode::ThreeNonExact, [10_000, 10_000], &[[10_000, 9_363, 1]]);
    // Seven items of 9,363 reach 65,541, which a word would hold as 5.
    let strips: Vec<[u16; 9]> = (1..=7)
        .map(|strip| [1, 0, strip, 1, 1, 1, 0, 0, 0])
        .collect();
    assert_eq!(Lent::new().fold(&words, &strips), refused(17, 2));
    let mut stack: Vec<[u16; 9]> = (1..=7)
        .map(|place| [1, 0, 1, 1, place, 1, 0, 0, 0])
        .collect();
    stack.insert(0, [1, 0, 1, 1, 1, 1, 0, 0, 0]);
    for line in &mut stack[1..] {
        line[3] = 2;
    }
    assert_eq!(Lent::new().fold(&words, &stack), refused(16, 1));
    let wide: Vec<[u16; 9]> = (1..=7)
        .map(|stack| [1, 0, 1, stack, 1, 1, 0, 0, 0])
        .collect();
    assert_eq!(Lent::new().fold(&words, &wide), refused(17, 1));
}

#[test]
fn positions_are_those_of_the_order_as_written() {
    // The widest item of the stack is not the lowest, and the leading stack is not the first.
    let words = job(
        Mode::ThreeNonExact,
        [9, 9],
        &[[2, 4, 1], [2, 2, 1], [3, 2, 1], [1, 1, 1]],
    );
    let lines = [
        [1, 0, 1, 1, 1, 4, 0, 0, 0],
        [1, 0, 1, 2, 1, 2, 1, 0, 0],
        [1, 0, 1, 2, 2, 3, 1, 2, 0],
        [1, 0, 1, 3, 1, 1, 4, 0, 0],
        [1, 0, 2, 1, 1, 4, 0, 4, 0],
    ];
    assert_eq!(Lent::new().fold(&words, &lines), boards(1));
    for line in 0..lines.len() {
        for column in [6, 7] {
            for change in [1, 10_000] {
                let mut wrong = lines;
                wrong[line][column] = (wrong[line][column] + change).min(10_000);
                let place = line as u32 + 1;
                assert_eq!(Lent::new().fold(&words, &wrong), refused(18, place));
            }
        }
    }
}

#[test]
fn no_layout_words_at_all_leave_type_1_short() {
    assert_eq!(Lent::new().fold_words(&job_a(), &[]), refused(11, 1));
}

#[test]
fn the_lowest_type_laid_too_seldom_is_named() {
    assert_eq!(Lent::new().fold(&job_a(), &LINES_A[..4]), refused(11, 1));
    let mut lines = LINES_A;
    lines[1] = [1, 0, 2, 1, 1, 2, 0, 4, 0];
    lines[2] = [1, 0, 2, 2, 1, 2, 3, 4, 0];
    lines[3] = [2, 0, 1, 1, 1, 1, 0, 0, 0];
    assert_eq!(Lent::new().fold(&job_a(), &lines[..4]), refused(11, 2));
}

#[test]
fn structured_boards_are_empty_nowhere_and_hold_types_of_the_job() {
    let structured = Job::from_words(&mixed(Mode::ThreeNonExact)).unwrap();
    assert!(keeps_rules(&structured, &board(&[&[&[1]]])));
    assert!(!keeps_rules(&structured, &board(&[])));
    assert!(!keeps_rules(&structured, &board(&[&[]])));
    assert!(!keeps_rules(&structured, &board_of(1, &[&[&[1]]])));
    assert!(!keeps_rules(&structured, &board(&[&[&[1]], &[]])));
    assert!(!keeps_rules(&structured, &board(&[&[&[1], &[]]])));
    assert!(!keeps_rules(&structured, &board(&[&[&[5]]])));
    assert!(!keeps_rules(&structured, &board(&[&[&[0]]])));
}
