//! Folding: the order of items and stacks, and the cuts counted (document 01, "Layouts and
//! folding", second paragraph).

use crate::common::check;
use crate::common::jobs::{job, job_a};
use crate::common::lent::Lent;
use crate::common::{board, plain, strip};
use reference::folding::ordered;
use reference::{Board, Job, Mode, Position};

/// The cuts that folding a set counts, as plate and item type, with their counts.
fn folded(words: &[u16], set: &[Board]) -> Vec<([u16; 2], u16)> {
    let structured = Job::from_words(words).unwrap();
    let mut lent = Lent::new();
    let outlay = lent.fold(words, &check::lines(&structured, set)).unwrap();
    assert_eq!(outlay.boards as usize, set.len());
    let (_, cuts) = plain::listing(words);
    let counted = cuts
        .iter()
        .zip(&lent.counts)
        .filter(|(_, &count)| count > 0);
    counted
        .map(|(cut, &count)| ([cut[0], cut[1] / 2], count))
        .collect()
}

/// The types of a strip of unturned items in the order of folding.
fn in_order(words: &[u16], stacks: &[&[u16]]) -> Vec<Vec<u16>> {
    let sorted = ordered(&Job::from_words(words).unwrap(), &strip(stacks));
    let types = |stack: Vec<Position>| stack.into_iter().map(|item| item.item).collect();
    sorted.into_iter().map(types).collect()
}

/// Types: 1 is 2 by 3, 2 is 4 by 3, 3 is 1 by 5, 4 is 2 by 1.
fn two_stage() -> Vec<u16> {
    let items = [[2, 3, 1], [4, 3, 1], [1, 5, 1], [2, 1, 1]];
    job(Mode::TwoNonExact, [9, 5], &items)
}

#[test]
fn two_stage_items_are_ordered_by_falling_height() {
    let sorted = in_order(&two_stage(), &[&[4], &[1], &[2], &[3]]);
    assert_eq!(sorted, [[3], [1], [2], [4]]);
}

#[test]
fn equal_heights_keep_their_order_also_of_different_types() {
    let words = two_stage();
    assert_eq!(in_order(&words, &[&[2], &[1], &[3]]), [[3], [2], [1]]);
    assert_eq!(in_order(&words, &[&[1], &[2], &[3]]), [[3], [1], [2]]);
    assert_eq!(in_order(&words, &[&[2], &[1], &[2]]), [[2], [1], [2]]);
}

#[test]
fn the_order_of_equal_heights_decides_which_cuts_are_counted() {
    let words = job(Mode::TwoNonExact, [6, 3], &[[2, 3, 1], [4, 3, 1]]);
    // Plate 1 is (4, 3, 2), plate 2 is (2, 3, 2).
    let narrow_first = folded(&words, &[board(&[&[&[1], &[2]]])]);
    assert_eq!(narrow_first, [([0, 1], 1), ([1, 2], 1)]);
    let wide_first = folded(&words, &[board(&[&[&[2], &[1]]])]);
    assert_eq!(wide_first, [([0, 2], 1), ([2, 1], 1)]);
}

/// Types: 1 is 2 by 6, 2 is 3 by 2, 3 is 1 by 2, 4 is 3 by 1, 5 is 1 by 6.
fn three_stage() -> Vec<u16> {
    let items = [[2, 6, 1], [3, 2, 1], [1, 2, 1], [3, 1, 1], [1, 6, 1]];
    job(Mode::ThreeNonExact, [9, 6], &items)
}

#[test]
fn three_stage_stacks_are_ordered_by_falling_width() {
    let sorted = in_order(&three_stage(), &[&[1], &[3, 2, 4]]);
    assert_eq!(sorted, [vec![1], vec![2, 4, 3]]);
    let sorted = in_order(&three_stage(), &[&[1], &[3, 4, 2]]);
    assert_eq!(sorted, [vec![1], vec![4, 2, 3]]);
}

#[test]
fn the_leftmost_single_item_of_the_strips_height_moves_to_the_front() {
    let words = three_stage();
    let sorted = in_order(&words, &[&[2, 4], &[3], &[5], &[1]]);
    assert_eq!(sorted, [vec![5], vec![2, 4], vec![3], vec![1]]);
    let sorted = in_order(&words, &[&[2, 2, 2], &[1], &[3], &[5]]);
    assert_eq!(sorted, [vec![1], vec![2, 2, 2], vec![3], vec![5]]);
    let sorted = in_order(&words, &[&[5], &[1]]);
    assert_eq!(sorted, [[5], [1]]);
}

#[test]
fn stacks_of_a_three_stage_strip_are_not_sorted_but_for_the_one_moved() {
    let sorted = in_order(&three_stage(), &[&[4], &[2], &[5]]);
    assert_eq!(sorted, [[5], [4], [2]]);
}

#[test]
fn strips_keep_their_order() {
    let words = job(Mode::TwoNonExact, [3, 3], &[[3, 2, 1], [3, 1, 1]]);
    // Plate 1 is (3, 1, 1), plate 2 is (3, 2, 1).
    let low_first = folded(&words, &[board(&[&[&[2]], &[&[1]]])]);
    assert_eq!(low_first, [([0, 2], 1), ([2, 1], 1)]);
    let high_first = folded(&words, &[board(&[&[&[1]], &[&[2]]])]);
    assert_eq!(high_first, [([0, 1], 1), ([1, 2], 1)]);
}

#[test]
fn each_item_is_cut_from_what_the_cut_before_it_left() {
    // Stage 1: the post. Stage 2: the first of each further stack. Stage 3: the rest of a stack.
    let words = job(
        Mode::ThreeNonExact,
        [4, 6],
        &[[1, 6, 1], [3, 2, 1], [2, 2, 1]],
    );
    // Plate 1 is (3, 6, 2), 5 is (3, 4, 3), 10 is (2, 2, 3).
    let set = [board(&[&[&[3, 2, 3], &[1]]])];
    let counts = folded(&words, &set);
    assert_eq!(
        counts,
        [([0, 1], 1), ([1, 2], 1), ([5, 3], 1), ([10, 3], 1)]
    );
}

#[test]
fn a_two_stage_strip_is_cut_on_from_plates_of_the_items_heights() {
    let words = job(Mode::TwoNonExact, [6, 4], &[[2, 4, 1], [2, 2, 1]]);
    // Plate 1 is (4, 4, 2), 5 is (2, 2, 2): after the low item only low ones follow.
    let set = [board(&[&[&[2], &[1], &[2]]])];
    let counts = folded(&words, &set);
    assert_eq!(counts, [([0, 1], 1), ([1, 2], 1), ([5, 2], 1)]);
}

#[test]
fn equal_boards_are_counted_each() {
    let full = board(&[&[&[1], &[2]], &[&[2], &[2]]]);
    let set = vec![full.clone(), full.clone(), full];
    let counts = folded(&job_a(), &set);
    assert_eq!(counts, [([0, 1], 3), ([1, 2], 3), ([2, 2], 3), ([4, 2], 3)]);
}

#[test]
fn folding_gives_the_boards_of_the_set() {
    let mut set = vec![board(&[&[&[2]]]); 17];
    set.push(board(&[&[&[1], &[2]]]));
    set.push(board(&[&[&[1]]]));
    let counts = folded(&job_a(), &set);
    assert_eq!(counts, [([0, 1], 2), ([0, 2], 17), ([2, 2], 1)]);
}
