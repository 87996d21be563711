//! Plates and cuts: the rules of each mode and stage, and the numbering of the walk (document
//! 01, "Plates and cuts").

use crate::common::jobs::{job, random_job, words_of};
use crate::common::lent::{Lent, CUTS, PLATES};
use crate::common::plain;
use crate::common::random::Random;
use reference::listing::FULL;
use reference::{Job, Listing, Mode, Position};

/// Asserts plates and cuts of a job, word for word.
fn assert_listing(words: &[u16], plates: &[[u16; 3]], cuts: &[[u16; 4]]) {
    let mut lent = Lent::new();
    let listed = lent.list(words).unwrap();
    let found = (listed.residuals as usize, listed.cuts as usize);
    assert_eq!(found, (plates.len() - 1, cuts.len()));
    let records = plain::plate_words(words, plates);
    assert_eq!(lent.plates[..records.len()], records);
    assert_eq!(lent.cuts[..4 * cuts.len()], cuts.concat());
}

#[test]
fn two_stage_right_takes_the_items_height() {
    let words = job(Mode::TwoNonExact, [6, 4], &[[2, 4, 1], [2, 2, 1]]);
    let plates = [
        [6, 4, 1],
        [4, 4, 2],
        [6, 2, 1],
        [4, 2, 2],
        [2, 4, 2],
        [2, 2, 2],
    ];
    let cuts = [
        [0, 2, 0, 1],
        [0, 4, 2, 3],
        [1, 2, 0, 4],
        [1, 4, 0, 5],
        [2, 4, 0, 3],
        [3, 4, 0, 5],
        [4, 2, 0, 0],
        [4, 4, 0, 0],
        [5, 4, 0, 0],
    ];
    assert_listing(&words, &plates, &cuts);
}

#[test]
fn two_exact_asks_for_the_height_at_stage_2_only() {
    let words = job(Mode::TwoExact, [6, 4], &[[2, 4, 1], [2, 2, 1]]);
    let plates = [
        [6, 4, 1],
        [4, 4, 2],
        [6, 2, 1],
        [4, 2, 2],
        [2, 4, 2],
        [2, 2, 2],
    ];
    let cuts = [
        [0, 2, 0, 1],
        [0, 4, 2, 3],
        [1, 2, 0, 4],
        [2, 4, 0, 3],
        [3, 4, 0, 5],
        [4, 2, 0, 0],
        [5, 4, 0, 0],
    ];
    assert_listing(&words, &plates, &cuts);
}

#[test]
fn three_stage_right_keeps_the_strips_height_at_stage_2() {
    let words = job(Mode::ThreeNonExact, [7, 5], &[[3, 5, 1], [2, 2, 1]]);
    let plates = [
        [7, 5, 1],
        [4, 5, 2],
        [7, 3, 1],
        [5, 2, 2],
        [2, 3, 3],
        [2, 5, 2],
        [3, 2, 2],
    ];
    let cuts = [
        [0, 2, 0, 1],
        [0, 4, 2, 3],
        [1, 2, 0, 0],
        [1, 4, 4, 5],
        [2, 4, 0, 3],
        [3, 4, 0, 6],
        [4, 4, 0, 0],
        [5, 4, 4, 0],
        [6, 4, 0, 0],
    ];
    assert_listing(&words, &plates, &cuts);
}

/// Stacks of several widths: a post of 1 by 6, items of 3 by 2 and 2 by 2.
const STACKING: [[u16; 3]; 3] = [[1, 6, 1], [3, 2, 1], [2, 2, 1]];

const STACKING_PLATES: [[u16; 3]; 11] = [
    [4, 6, 1],
    [3, 6, 2],
    [4, 4, 1],
    [2, 2, 2],
    [2, 6, 2],
    [3, 4, 3],
    [2, 4, 3],
    [1, 6, 2],
    [4, 2, 1],
    [3, 2, 3],
    [2, 2, 3],
];

#[test]
fn three_stage_top_takes_the_items_width_at_stages_2_and_3() {
    let words = job(Mode::ThreeNonExact, [4, 6], &STACKING);
    let cuts = [
        [0, 2, 0, 1],
        [0, 4, 2, 0],
        [0, 6, 2, 3],
        [1, 2, 0, 4],
        [1, 4, 5, 0],
        [1, 6, 6, 7],
        [2, 4, 8, 0],
        [2, 6, 8, 3],
        [3, 6, 0, 0],
        [4, 2, 0, 7],
        [4, 6, 6, 0],
        [5, 4, 9, 0],
        [5, 6, 10, 0],
        [6, 6, 10, 0],
        [7, 2, 0, 0],
        [8, 4, 0, 0],
        [8, 6, 0, 3],
        [9, 4, 0, 0],
        [9, 6, 0, 0],
        [10, 6, 0, 0],
    ];
    assert_listing(&words, &STACKING_PLATES, &cuts);
}

#[test]
fn three_exact_asks_for_the_width_at_stage_3_only() {
    let words = job(Mode::ThreeExact, [4, 6], &STACKING);
    let cuts = [
        [0, 2, 0, 1],
        [0, 4, 2, 0],
        [0, 6, 2, 3],
        [1, 2, 0, 4],
        [1, 4, 5, 0],
        [1, 6, 6, 7],
        [2, 4, 8, 0],
        [2, 6, 8, 3],
        [3, 6, 0, 0],
        [4, 2, 0, 7],
        [4, 6, 6, 0],
        [5, 4, 9, 0],
        [6, 6, 10, 0],
        [7, 2, 0, 0],
        [8, 4, 0, 0],
        [8, 6, 0, 3],
        [9, 4, 0, 0],
        [10, 6, 0, 0],
    ];
    assert_listing(&words, &STACKING_PLATES, &cuts);
}

#[test]
fn an_exact_residual_is_kept_only_for_an_item_of_its_own_side() {
    // The right plate (3, 3, 2) holds no item of height 3 in 2E, though item 2 fits.
    let items = [[4, 3, 1], [3, 2, 1]];
    let exact = listed(Mode::TwoExact, [7, 3], &items);
    assert!(!exact.0.contains(&[3, 3, 2]));
    let non_exact = listed(Mode::TwoNonExact, [7, 3], &items);
    assert!(non_exact.0.contains(&[3, 3, 2]));
    // The top plate (3, 3, 3) holds no item of width 3 in 3E, though item 3 fits.
    let items = [[1, 7, 1], [3, 4, 1], [2, 2, 1]];
    let exact = listed(Mode::ThreeExact, [4, 7], &items);
    assert!(!exact.0.contains(&[3, 3, 3]));
    let non_exact = listed(Mode::ThreeNonExact, [4, 7], &items);
    assert!(non_exact.0.contains(&[3, 3, 3]));
}

/// Plates and cuts as the listing call leaves them.
fn listed(mode: Mode, board: [u16; 2], items: &[[u16; 3]]) -> (Vec<[u16; 3]>, usize) {
    let mut lent = Lent::new();
    let listed = lent.list(&job(mode, board, items)).unwrap();
    let plates = lent
        .plates
        .chunks_exact(4)
        .take(listed.residuals as usize + 1);
    let plates = plates.map(|plate| plate[..3].try_into().unwrap()).collect();
    (plates, listed.cuts as usize)
}

#[test]
fn demand_plays_no_part_in_the_listing() {
    let low = listed(Mode::ThreeNonExact, [9, 9], &[[2, 3, 1], [4, 2, 1]]);
    let high = listed(Mode::ThreeNonExact, [9, 9], &[[2, 3, 900], [4, 2, 77]]);
    assert_eq!(low, high);
}

#[test]
fn no_residual_is_type_0_and_none_is_top_and_right_of_one_cut() {
    let mut random = Random::new(17);
    for _ in 0..3_000 {
        let structured = random_job(&mut random);
        let listing = Listing::walk(&structured, FULL).unwrap();
        for cut in &listing.cuts {
            assert!(cut.top != Some(0) && cut.right != Some(0));
            assert!(cut.top.is_none() || cut.top != cut.right);
        }
    }
}

#[test]
fn random_listings_are_those_of_the_plain_walk() {
    let mut random = Random::new(1);
    let mut lent = Lent::new();
    for _ in 0..20_000 {
        let words = words_of(&random_job(&mut random));
        // The lent buffers compare with the plain walk.
        lent.list(&words).unwrap();
    }
    assert_eq!((lent.plates.len(), lent.cuts.len()), (PLATES, CUTS));
}

#[test]
fn a_cut_is_found_by_its_plate_item_and_turn_and_by_no_others() {
    let mut random = Random::new(2);
    for _ in 0..500 {
        let structured = random_job(&mut random);
        let (plates, cuts) = plain::listing(&words_of(&structured));
        let listing = Listing::walk(&structured, FULL).unwrap();
        for plate in 0..plates.len() as u16 + 2 {
            for word in 0..2 * structured.items.len() as u16 + 4 {
                let expected = cuts.iter().position(|cut| cut[..2] == [plate, word]);
                let position = Position {
                    item: word / 2,
                    turned: word % 2 == 1,
                };
                assert_eq!(position.word(), word);
                assert_eq!(listing.cut_of(plate, position), expected);
            }
        }
    }
}

#[test]
fn the_walk_gives_words_of_its_own_plates_and_cuts() {
    let structured = Job::from_words(&job(Mode::TwoNonExact, [9, 7], &[[5, 4, 2], [3, 3, 3]]));
    let structured = structured.unwrap();
    let listing = Listing::walk(&structured, FULL).unwrap();
    assert_eq!(listing.residual_types(), 5);
    let plates = listing.plate_words(&structured);
    assert_eq!(plates[..8], [9, 7, 1, 1, 9, 3, 1, 0]);
    assert_eq!(listing.cut_words()[..8], [0, 2, 1, 2, 0, 4, 3, 4]);
    assert_eq!(listing.cuts_on(3), 4..6);
}
