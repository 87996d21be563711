//! The limits of the model: 2,048 plate types and 8,192 cuts, at the edge, one below and one
//! past it (document 01, "Plates and cuts").

use crate::common::jobs::{job, random_job};
use crate::common::lent::Lent;
use crate::common::random::Random;
use crate::common::refused;
use reference::listing::{Limits, FULL};
use reference::{Job, Listed, Listing, Mode};

/// Items of 1 by 1 on a board of W by H give W + H - 1 plate types in two stages: a chain of
/// tops and one of rights, each with a cut for each small type. A type as large as the board
/// adds one cut on type 0 and no residual.
fn chain(width: u16, height: u16, small: usize, large: usize) -> Vec<u16> {
    let mut items = vec![[width, height, 1]; large];
    items.extend(vec![[1, 1, 1]; small]);
    job(Mode::TwoNonExact, [width, height], &items)
}

fn listed(plate_types: u32, cuts: u32) -> Result<Listed, reference::Refusal> {
    Ok(Listed {
        residuals: plate_types - 1,
        cuts,
    })
}

#[test]
fn exactly_2_048_plate_types_are_listed_and_2_049_are_6() {
    for (width, height) in [
        (1_024, 1_025),
        (2_000, 49),
        (49, 2_000),
        (2_048, 1),
        (1, 2_048),
    ] {
        let at_limit = chain(width, height, 1, 0);
        assert_eq!(Lent::new().list(&at_limit), listed(2_048, 2_048));
        let past = chain(width + 1, height, 1, 0);
        assert_eq!(Lent::new().list(&past), refused(6, 0));
        let past = chain(width, height + 1, 1, 0);
        assert_eq!(Lent::new().list(&past), refused(6, 0));
        let below = chain(width, height.max(2) - 1, 1, 0);
        assert!(Lent::new().list(&below).is_ok());
    }
}

#[test]
fn exactly_8_192_cuts_are_listed_and_8_193_are_7() {
    let at_both_limits = chain(1_024, 1_025, 4, 0);
    assert_eq!(Lent::new().list(&at_both_limits), listed(2_048, 8_192));
    assert_eq!(Lent::new().list(&chain(1_024, 1_025, 4, 1)), refused(7, 0));
    for (large, answer) in [
        (3, listed(2_047, 8_191)),
        (4, listed(2_047, 8_192)),
        (5, refused(7, 0)),
    ] {
        let found = Lent::new().list(&chain(1_024, 1_024, 4, large));
        assert_eq!(found, answer, "{large} large types");
    }
}

#[test]
fn of_6_and_7_the_one_met_first_is_given() {
    // 2,049 types in all; the last arises from the first small cut on type 2,047, which is
    // cut number 4 * 2,047 + 1 + the number of large types.
    assert_eq!(Lent::new().list(&chain(2_040, 10, 4, 2)), refused(6, 0));
    assert_eq!(Lent::new().list(&chain(2_040, 10, 4, 3)), refused(6, 0));
    assert_eq!(Lent::new().list(&chain(2_040, 10, 4, 4)), refused(7, 0));
    assert_eq!(Lent::new().list(&chain(2_040, 10, 4, 5)), refused(7, 0));
}

#[test]
fn large_jobs_pass_the_limits_in_every_mode() {
    for mode in Mode::ALL {
        let items: Vec<[u16; 3]> = (1..=40)
            .map(|side| [100 + 13 * side, 90 + 17 * side, 1])
            .collect();
        let words = job(mode, [10_000, 10_000], &items);
        let refusal = Lent::new().list(&words).unwrap_err();
        assert!([6, 7].contains(&refusal.number) && refusal.place == 0);
        let slender = job(mode, [10_000, 10_000], &[[1, 1, 1]]);
        assert_eq!(Lent::new().list(&slender), refused(6, 0));
    }
}

#[test]
fn forty_alike_types_on_few_plates_pass_the_limit_of_cuts() {
    // 205 plate types with 40 cuts each are 8,200 cuts.
    let words = job(Mode::TwoNonExact, [105, 101], &[[1, 1, 1]; 40]);
    assert_eq!(Lent::new().list(&words), refused(7, 0));
    let words = job(Mode::TwoNonExact, [104, 101], &[[1, 1, 1]; 40]);
    assert_eq!(Lent::new().list(&words), listed(204, 8_160));
}

/// Walks a job with limits at its own size, and one below each.
fn assert_edges(structured: &Job) {
    let full = Listing::walk(structured, FULL).unwrap();
    let own = Limits {
        plate_types: full.plates.len(),
        cuts: full.cuts.len(),
    };
    assert_eq!(Listing::walk(structured, own), Ok(full));
    let fewer_cuts = Limits {
        cuts: own.cuts - 1,
        ..own
    };
    assert_eq!(Listing::walk(structured, fewer_cuts), refused(7, 0));
    if own.plate_types > structured.sizes.len() {
        let fewer_plates = Limits {
            plate_types: own.plate_types - 1,
            ..own
        };
        assert_eq!(Listing::walk(structured, fewer_plates), refused(6, 0));
    }
}

#[test]
fn every_job_passes_at_its_own_size_and_not_one_below() {
    let mut random = Random::new(5);
    for _ in 0..5_000 {
        assert_edges(&random_job(&mut random));
    }
}

#[test]
fn every_pair_of_lower_limits_gives_the_one_met_first() {
    let mut random = Random::new(6);
    for _ in 0..100 {
        let structured = random_job(&mut random);
        let full = Listing::walk(&structured, FULL).unwrap();
        for plate_types in full.sizes..full.plates.len() {
            // The cut that brings the first plate type too many.
            let brings = |cut: &reference::Cut| {
                let new = plate_types as u16;
                cut.top == Some(new) || cut.right == Some(new)
            };
            let meets = full.cuts.iter().position(brings).unwrap();
            for cuts in [
                0,
                meets.saturating_sub(1),
                meets,
                meets + 1,
                full.cuts.len(),
            ] {
                let limits = Limits { plate_types, cuts };
                let number = if cuts > meets { 6 } else { 7 };
                assert_eq!(Listing::walk(&structured, limits), refused(number, 0));
            }
        }
    }
}

#[test]
fn where_one_pair_is_a_cut_too_many_and_brings_a_type_too_many_the_answer_is_7() {
    // Cut 1 brings plate types 1 and 2.
    let structured = Job::from_words(&chain(9, 7, 1, 0)).unwrap();
    let none = Limits {
        plate_types: 1,
        cuts: 0,
    };
    assert_eq!(Listing::walk(&structured, none), refused(7, 0));
    let one = Limits {
        plate_types: 1,
        cuts: 1,
    };
    assert_eq!(Listing::walk(&structured, one), refused(6, 0));
}
