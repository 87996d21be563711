//! The blade has a width (document 02, Four): the worked cases, and wrong readings that they shut
//! out.

use crate::common::boards;
use crate::common::jobs::{job, job_a, job_of, job_with_blade, PLAN_A};
use crate::common::lent::{full_counts, Lent, LEAST};
use crate::common::texts::{assert_text, job_text, layout_text, line, plan_text, refusal};
use crate::common::{board, refused};
use reference::balance::of_boards;
use reference::layout::keeps_rules;
use reference::listing::FULL;
use reference::unfolding::unfold;
use reference::{fold_text, saw_text, Balance, Job, Listed, Listing, Mode, Refusal};

/// Job A with a blade.
fn job_a_with(blade: u16) -> Vec<u16> {
    job_with_blade(Mode::TwoNonExact, [9, 7], blade, &[[5, 4, 2], [3, 3, 3]])
}

fn listed(residuals: u32, cuts: u32) -> Result<Listed, Refusal> {
    Ok(Listed { residuals, cuts })
}

/// The plates that the listing of a job leaves.
fn plates(words: &[u16]) -> Vec<[u16; 3]> {
    let mut lent = Lent::new();
    let listed = lent.list(words).unwrap();
    let records = lent.plates.chunks_exact(4);
    let plates = records.take(listed.residuals as usize + 1);
    plates.map(|plate| plate[..3].try_into().unwrap()).collect()
}

/// The balance of each board of the plan that lines of a job fold into.
fn balances(words: &[u16], lines: &[[u16; 9]]) -> Vec<Balance> {
    let mut lent = Lent::new();
    lent.fold(words, lines).unwrap();
    let job = Job::from_words(words).unwrap();
    let listing = Listing::walk(&job, FULL).unwrap();
    let counts = &lent.counts[..listing.cuts.len()];
    of_boards(&job, &listing, &unfold(&job, &listing, counts))
}

fn balance([items, offcuts, waste, swath]: [u64; 4]) -> Balance {
    Balance {
        items,
        offcuts,
        waste,
        swath,
    }
}

#[test]
fn job_a_with_blades_of_0_to_4() {
    let sizes = [(5, 8), (3, 5), (1, 3), (1, 3), (0, 2)];
    for (blade, (residuals, cuts)) in (0..).zip(sizes) {
        let answer = Lent::new().list(&job_a_with(blade));
        assert_eq!(answer, listed(residuals, cuts), "b {blade}");
    }
    let one = [[9, 7, 1], [3, 4, 2], [9, 3, 1], [5, 3, 2]];
    assert_eq!(plates(&job_a_with(1)), one);
    assert_eq!(plates(&job_a_with(2)), [[9, 7, 1], [4, 3, 2]]);
    assert_eq!(plates(&job_a_with(3)), [[9, 7, 1], [3, 3, 2]]);
    assert_eq!(plates(&job_a_with(4)), [[9, 7, 1]]);
}

#[test]
fn the_blade_is_20_at_most_in_every_call_and_text() {
    let mut lent = Lent::new();
    for blade in [21, 22, 255, 65_535] {
        let words = job_a_with(blade);
        assert_eq!(lent.list(&words), refused(2, 0));
        assert_eq!(lent.test_plan(&words, &PLAN_A), refused(2, 0));
        assert_eq!(lent.test_prices(&words, &[1]), refused(2, 0));
        assert_eq!(lent.unfold(&words, &PLAN_A), refused(2, 0));
        assert_eq!(lent.fold(&words, &[]), refused(2, 0));
        assert_text(&saw_text(&job_text(&words)), &refusal(2, 1));
        assert_text(&fold_text(&job_text(&words)), &refusal(2, 1));
    }
    // The blade stands before every type, and every type before the lengths of unfolding.
    let mut words = job_a_with(21);
    words[8] = 0;
    assert_eq!(lent.unfold_with(&words, &PLAN_A, [0, 0]), refused(2, 0));
    words[4] = 20;
    assert_eq!(lent.unfold_with(&words, &PLAN_A, [0, 0]), refused(2, 1));
}

#[test]
fn two_items_and_the_blade_between_them_fill_a_strip() {
    let words = |width| job_with_blade(Mode::TwoNonExact, [width, 5], 1, &[[5, 4, 2]]);
    let mut lent = Lent::new();
    assert_eq!(lent.list(&words(11)), listed(1, 2));
    let unfolded = lent.unfold(&words(11), &[1, 1]).unwrap();
    let found = (unfolded.boards, unfolded.pieces, unfolded.offcuts);
    assert_eq!(found, (1, 2, 0));
    let second = [1, 0, 1, 2, 1, 1, 6, 0, 0];
    assert_eq!(lent.lines(), [[1, 0, 1, 1, 1, 1, 0, 0, 0], second]);
    // On a board of 10 the second does not fit, whichever way it is laid.
    assert_eq!(lent.list(&words(10)), listed(0, 1));
    let first = [1, 0, 1, 1, 1, 1, 0, 0, 0];
    assert_eq!(lent.fold(&words(10), &[first, second]), refused(17, 1));
    // There is no blade at the edges: on a board of 12 nothing more fits either.
    assert_eq!(lent.list(&words(12)), listed(1, 2));
}

#[test]
fn a_stack_with_the_blade_is_as_high_as_its_strip() {
    let words = job_with_blade(Mode::ThreeNonExact, [10, 10], 2, &[[4, 10, 1], [4, 4, 2]]);
    let layouts = |y| {
        [
            [1, 0, 1, 1, 1, 1, 0, 0, 0],
            [1, 0, 1, 2, 1, 2, 6, 0, 0],
            [1, 0, 1, 2, 2, 2, 6, y, 0],
        ]
    };
    let mut lent = Lent::new();
    assert_eq!(lent.fold(&words, &layouts(6)), boards(1));
    assert_eq!(lent.counts[..7], [1, 0, 0, 1, 0, 0, 1]);
    let counts = lent.counts.clone();
    assert_eq!(lent.test_plan(&words, &counts), boards(1));
    lent.unfold(&words, &counts).unwrap();
    assert_eq!(lent.lines(), layouts(6));
    // A wider gap and a narrower one are no slack.
    for y in [0, 4, 5, 7, 8, 10] {
        assert_eq!(lent.fold(&words, &layouts(y)), refused(18, 3), "y {y}");
    }
}

#[test]
fn every_gap_is_as_wide_as_the_blade() {
    let words = job_with_blade(Mode::ThreeNonExact, [30, 30], 3, &[[4, 9, 1], [5, 3, 1]]);
    let layouts = [
        [1, 0, 1, 1, 1, 1, 0, 0, 0],
        [1, 0, 1, 2, 1, 2, 7, 0, 0],
        [1, 0, 1, 2, 2, 2, 7, 6, 0],
        [1, 0, 1, 3, 1, 1, 15, 0, 0],
        [1, 0, 2, 1, 1, 2, 0, 12, 0],
    ];
    let mut lent = Lent::new();
    assert_eq!(lent.fold(&words, &layouts), boards(1));
    for index in 0..layouts.len() {
        for column in [6, 7] {
            for by in [1, 2, 3, 4] {
                let mut wider = layouts;
                wider[index][column] += by;
                let place = index as u32 + 1;
                assert_eq!(lent.fold(&words, &wider), refused(18, place));
                let mut narrower = layouts;
                narrower[index][column] = narrower[index][column].saturating_sub(by);
                if narrower != layouts {
                    assert_eq!(lent.fold(&words, &narrower), refused(18, place));
                }
            }
        }
    }
}

#[test]
fn gaps_count_in_the_strips_height_that_a_single_item_has() {
    // The stack is 4 + 2 + 4 high: an item of 8, the heights alone, does not lead it.
    for (lead, number) in [(8, 16), (9, 16), (10, 0), (11, 0)] {
        let items = [[4, lead, 1], [4, 4, 2]];
        let words = job_with_blade(Mode::ThreeNonExact, [20, 20], 2, &items);
        let layouts = [
            [1, 0, 1, 1, 1, 1, 0, 0, 0],
            [1, 0, 1, 2, 1, 2, 6, 0, 0],
            [1, 0, 1, 2, 2, 2, 6, 6, 0],
        ];
        let answer = Lent::new().fold(&words, &layouts);
        let found = answer.map_or_else(|refusal| refusal.number, |_| 0);
        assert_eq!(found, number, "lead {lead}");
    }
    // Two stages: in 2E the strip is as high as its items, whatever the blade.
    let words = job_with_blade(Mode::TwoExact, [20, 20], 7, &[[4, 3, 2]]);
    let layouts = [[1, 0, 1, 1, 1, 1, 0, 0, 0], [1, 0, 1, 2, 1, 1, 11, 0, 0]];
    assert_eq!(Lent::new().fold(&words, &layouts), boards(1));
}

#[test]
fn gaps_count_against_both_sides_of_the_board() {
    let fold = |board, blade, layouts: &[[u16; 9]]| {
        let words = job_with_blade(Mode::TwoNonExact, board, blade, &[[3, 3, 3]]);
        Lent::new().fold(&words, layouts)
    };
    let across = |step| [0, 1, 2].map(|k| [1, 0, 1, k + 1, 1, 1, step * k, 0, 0]);
    assert_eq!(fold([13, 3], 2, &across(5)), boards(1));
    assert_eq!(fold([12, 3], 2, &across(5)), refused(17, 1));
    let upwards = |step| [0, 1, 2].map(|k| [1, 0, k + 1, 1, 1, 1, 0, step * k, 0]);
    assert_eq!(fold([3, 13], 2, &upwards(5)), boards(1));
    // Of the strips the third is the first whose own top edge is too high.
    assert_eq!(fold([3, 12], 2, &upwards(5)), refused(17, 3));
    assert_eq!(fold([3, 7], 2, &upwards(5)), refused(17, 2));
    // A gap is added after the strips below alone: 3 + 20 + 3 is 26.
    let two = |step: u16| [[1, 0, 1, 1, 1, 1, 0, 0, 0], [1, 0, 2, 1, 1, 1, 0, step, 0]];
    assert_eq!(fold([3, 26], 20, &two(23)), refused(11, 1));
    assert_eq!(fold([3, 25], 20, &two(23)), refused(17, 2));
}

#[test]
fn structured_boards_keep_the_rules_with_their_gaps() {
    let keeps = |sides, layout: &[&[&[u16]]]| {
        let words = job_with_blade(Mode::ThreeNonExact, sides, 4, &[[3, 3, 1], [2, 11, 1]]);
        keeps_rules(&Job::from_words(&words).unwrap(), &board(layout))
    };
    // Two strips of 3, two stacks of 3, and two items of 3 in a stack beside one of 11.
    let [strips, stacks]: [&[&[&[u16]]]; 2] = [&[&[&[1]], &[&[1]]], &[&[&[1], &[1]]]];
    assert!(keeps([3, 10], strips) && !keeps([3, 9], strips));
    assert!(keeps([10, 11], stacks) && !keeps([9, 11], stacks));
    let beside = &[&[&[2][..], &[1, 1]][..]];
    assert!(keeps([9, 11], beside) && !keeps([8, 11], beside));
    assert!(!keeps([9, 30], &[&[&[2], &[1, 1, 1]]]));
}

#[test]
fn the_blade_is_no_part_of_a_stacks_width() {
    // Stacks of 3 and 4, the second of two widths, with the blade between them: 9 across.
    let items = [[3, 8, 1], [4, 3, 1], [2, 3, 1]];
    let layouts = [
        [1, 0, 1, 1, 1, 1, 0, 0, 0],
        [1, 0, 1, 2, 1, 2, 5, 0, 0],
        [1, 0, 1, 2, 2, 3, 5, 5, 0],
    ];
    let words = |width| job_with_blade(Mode::ThreeNonExact, [width, 8], 2, &items);
    assert_eq!(Lent::new().fold(&words(9), &layouts), boards(1));
    assert_eq!(Lent::new().fold(&words(8), &layouts), refused(17, 1));
}

#[test]
fn a_trim_needs_no_blade() {
    // In 2N the second item is lower by 1 than its strip, in 3N narrower by 1 than its stack.
    let words = job_with_blade(Mode::TwoNonExact, [18, 9], 2, &[[8, 9, 1], [8, 8, 1]]);
    let layouts = [[1, 0, 1, 1, 1, 1, 0, 0, 0], [1, 0, 1, 2, 1, 2, 10, 0, 0]];
    assert_eq!(Lent::new().fold(&words, &layouts), boards(1));
    let items = [[4, 10, 1], [4, 4, 1], [3, 4, 1]];
    let words = job_with_blade(Mode::ThreeNonExact, [10, 10], 2, &items);
    let layouts = [
        [1, 0, 1, 1, 1, 1, 0, 0, 0],
        [1, 0, 1, 2, 1, 2, 6, 0, 0],
        [1, 0, 1, 2, 2, 3, 6, 6, 0],
    ];
    let mut lent = Lent::new();
    assert_eq!(lent.fold(&words, &layouts), boards(1));
    let counts = lent.counts.clone();
    assert_eq!(lent.test_plan(&words, &counts), boards(1));
}

#[test]
fn only_the_divided_side_of_a_residual_loses_the_blade() {
    let items = [[4, 5, 1], [2, 2, 1]];
    let two = plates(&job_with_blade(Mode::TwoNonExact, [20, 20], 3, &items));
    // Stage 1: the top is as wide as the board, the right as high as the item; then stage 2.
    assert_eq!(two[..3], [[20, 20, 1], [20, 12, 1], [13, 5, 2]]);
    assert!(two.contains(&[6, 5, 2]) && two.contains(&[8, 2, 2]));
    let three = plates(&job_with_blade(Mode::ThreeNonExact, [20, 20], 3, &items));
    assert_eq!(three[..3], [[20, 20, 1], [20, 12, 1], [13, 5, 2]]);
    // Stage 2 leaves a right as high as the strip and a top as wide as the item; stage 3 a top too.
    assert!(three.contains(&[6, 5, 2]) && three.contains(&[8, 5, 2]));
    let items = [[1, 20, 1], [4, 5, 1], [2, 2, 1]];
    let stacked = plates(&job_with_blade(Mode::ThreeNonExact, [20, 20], 3, &items));
    assert!(stacked.contains(&[4, 12, 3]) && stacked.contains(&[2, 7, 3]));
}

#[test]
fn where_the_blade_or_less_remains_there_is_no_residual() {
    // Beside the item of 5 remain 1, 2 and 3, and an item of 1 would fit; from 4 on one does.
    for mode in Mode::ALL {
        for width in 6..=9 {
            let words = job_with_blade(mode, [width, 1], 3, &[[5, 1, 1], [1, 1, 1]]);
            let mut lent = Lent::new();
            lent.list(&words).unwrap();
            let right = u16::from(width == 9);
            assert_eq!(lent.cuts[..4], [0, 2, 0, right], "{width}");
            let words = job_with_blade(mode, [1, width], 3, &[[1, 5, 1], [1, 1, 1]]);
            lent.list(&words).unwrap();
            assert_eq!(lent.cuts[..4], [0, 2, right, 0], "{width}");
        }
    }
}

#[test]
fn neither_admission_nor_a_cut_looks_at_the_blade() {
    for mode in Mode::ALL {
        for blade in [0, 1, 19, 20] {
            let words = job_with_blade(mode, [9, 7], blade, &[[9, 7, 1]]);
            assert_eq!(Lent::new().list(&words), listed(0, 1));
            let words = job_with_blade(mode, [9, 7], blade, &[[10, 7, 1]]);
            assert_eq!(Lent::new().list(&words), refused(3, 1));
            // Less than the blade remains beside and above.
            let words = job_with_blade(mode, [9, 7], blade.max(1), &[[8, 6, 1]]);
            assert_eq!(Lent::new().list(&words), listed(0, 1));
        }
    }
}

#[test]
fn a_blade_above_every_side_leaves_one_item_to_a_board() {
    for mode in Mode::ALL {
        let words = job_of(mode, [12, 9], 20, &[[3, 2, 2, 1], [1, 1, 1, 0]]);
        let mut lent = Lent::new();
        assert_eq!(lent.list(&words), listed(0, 3));
        assert_eq!(lent.unfold(&words, &[1, 1, 1]).unwrap().boards, 3);
        let first = [1, 0, 1, 1, 1, 1, 0, 0, 0];
        for second in [[1, 0, 1, 2, 1, 1, 23, 0, 0], [1, 0, 2, 1, 1, 1, 0, 22, 0]] {
            let refusal = lent.fold(&words, &[first, second]).unwrap_err();
            assert_eq!(refusal.number, 17);
        }
    }
}

#[test]
fn what_remains_less_the_blade_does_not_wrap() {
    // A side of 65,536 - b would hold every item.
    let words = job_with_blade(Mode::ThreeNonExact, [10, 10], 20, &[[9, 9, 1], [1, 1, 1]]);
    assert_eq!(plates(&words), [[10, 10, 1]]);
    let words = job_with_blade(Mode::TwoExact, [10_000, 10_000], 20, &[[9_981, 9_981, 1]]);
    assert_eq!(Lent::new().list(&words), listed(0, 1));
}

#[test]
fn an_item_that_leaves_less_than_the_blade_has_swath_alone() {
    for mode in Mode::ALL {
        let words = job_with_blade(mode, [10, 10], 3, &[[8, 9, 1]]);
        let found = balances(&words, &[[1, 0, 1, 1, 1, 1, 0, 0, 0]]);
        assert_eq!(found, [balance([72, 0, 0, 10 + 2 * 9])]);
    }
}

#[test]
fn the_swath_stops_at_a_trim() {
    let words = job_with_blade(Mode::TwoNonExact, [20, 10], 2, &[[8, 9, 1], [8, 6, 1]]);
    let layouts = [[1, 0, 1, 1, 1, 1, 0, 0, 0], [1, 0, 1, 2, 1, 2, 10, 0, 0]];
    let found = balances(&words, &layouts);
    assert_eq!(found, [balance([72 + 48, 0, 10 * 3, 20 + 2 * 9 + 2 * 6])]);
    // At stage 3: a post of 3 by 20, then 8 by 7 and 5 by 7 in one stack, on 15 by 20.
    let items = [[3, 20, 1], [8, 7, 1], [5, 7, 1]];
    let words = job_with_blade(Mode::ThreeNonExact, [15, 20], 2, &items);
    let layouts = [
        [1, 0, 1, 1, 1, 1, 0, 0, 0],
        [1, 0, 1, 2, 1, 2, 5, 0, 0],
        [1, 0, 1, 2, 2, 3, 5, 9, 0],
    ];
    let found = balances(&words, &layouts);
    // Beside the post 2 by 20, beside the stack 2 by 20, above 8 by 2, above 5 by 2. What remains
    // above is 5 by 2, beside the upper item 3 by 11: a trim, the blade's part of it included.
    let swath = 2 * 20 + 2 * 20 + 8 * 2 + 5 * 2;
    let waste = 5 * 2 + 3 * 11;
    let items = 60 + 56 + 35;
    assert_eq!(found, [balance([items, 0, waste, swath])]);
}

#[test]
fn offcuts_begin_beyond_the_blade() {
    let words = job_a_with(1);
    let mut lent = Lent::new();
    lent.unfold_with(&words, &[2, 3, 0, 0, 0], LEAST).unwrap();
    let of_board = |board: u16| {
        let mut left = lent.left_over();
        left.retain(|offcut| offcut[0] == board);
        left
    };
    assert_eq!(of_board(1), [[1, 6, 0, 3, 4, 1]]);
    assert_eq!(of_board(3), [[3, 4, 0, 5, 3, 1], [3, 0, 4, 9, 3, 1]]);
}

#[test]
fn texts_with_a_blade() {
    let words = job_with_blade(Mode::TwoNonExact, [11, 9], 1, &[[5, 4, 3]]);
    let head = job_text(&words);
    assert_eq!(head.len(), 55 + 46 + 55);
    assert_eq!(&head[45..55], b"        1\n");
    let plates = [[11, 9, 1], [11, 4, 1], [5, 4, 2]];
    let cuts = [[0, 2, 1, 2], [1, 2, 0, 2], [2, 2, 0, 0]];
    let plan = plan_text(&plates, &cuts, &[1, 1, 1]);
    let placed = layout_text(&[
        [1, 0, 1, 1, 1, 1, 0, 0, 0],
        [1, 0, 1, 2, 1, 1, 6, 0, 0],
        [1, 0, 2, 1, 1, 1, 0, 5, 0],
    ]);
    let last = line(&[8, 1, 0, 1, 0]);
    let saw = [head.clone(), plan.clone()].concat();
    assert_text(&saw_text(&saw), &[placed.clone(), last].concat());
    let fold = [head, placed].concat();
    assert_text(&fold_text(&fold), &plan);
    // The same layouts under a line 1 with another blade.
    let mut other = fold;
    other[53] = b'2';
    assert_text(&fold_text(&other), &refusal(17, 4));
}

#[test]
fn without_a_blade_job_a_is_that_of_document_01() {
    assert_eq!(job_a_with(0), job_a());
    assert_eq!(Lent::new().test_plan(&job_a_with(0), &PLAN_A), boards(2));
    // With a blade the plan's counts name other cuts, and more of them.
    let past = full_counts(&PLAN_A);
    assert_eq!(Lent::new().test_plan(&job_a_with(1), &past), refused(8, 7));
    let plain = job(Mode::TwoNonExact, [9, 7], &[[5, 4, 2], [3, 3, 3]]);
    assert_eq!(plain, job_a());
}
