//! Job words: their length, their limits, the job row (document 01, "The job" and the table).

use crate::common::jobs::{job, job_a, job_with_blade};
use crate::common::lent::Lent;
use crate::common::refused;
use reference::{Item, Job, Listed, Mode, Size};

/// Job A's words with one of them changed.
fn changed(index: usize, word: u16) -> Vec<u16> {
    let mut words = job_a();
    words[index] = word;
    words
}

#[test]
fn another_length_is_1_place_0() {
    let whole = job_a();
    for length in 0..whole.len() {
        assert_eq!(Lent::new().list(&whole[..length]), refused(1, 0));
    }
    let mut longer = whole.clone();
    for _ in 0..4 {
        longer.push(3);
        assert_eq!(Lent::new().list(&longer), refused(1, 0));
    }
}

#[test]
fn the_length_that_n_asks_for_goes_before_the_limits() {
    // Four words a type: from 16,384 types on, their number is past a word.
    for n in [0, 1, 40, 41, 16_383, 16_384, 32_768, 49_152, 65_535] {
        let words = [2, 0, 1, n, 0, 9, 7, 1];
        let answer = if n == 0 { refused(2, 0) } else { refused(1, 0) };
        assert_eq!(Lent::new().list(&words), answer, "n {n}");
        assert_eq!(Lent::new().list(&words[..7]), refused(1, 0), "n {n}");
    }
    let mut types_41 = vec![2, 0, 1, 41, 0, 9, 7, 1];
    types_41.extend([1; 164]);
    assert_eq!(Lent::new().list(&types_41), refused(2, 0));
    let mut all_types = vec![9, 9, 0, 65_535, 0];
    all_types.extend(vec![0; 4 * 65_535]);
    assert_eq!(Lent::new().list(&all_types), refused(2, 0));
    all_types.pop();
    assert_eq!(Lent::new().list(&all_types), refused(1, 0));
}

#[test]
fn length_before_any_value() {
    let words = [5, 5, 7, 1, 21, 0, 0, 0];
    assert_eq!(Lent::new().list(&words), refused(1, 0));
}

#[test]
fn every_number_of_the_board_names_0() {
    for (index, bad) in [
        (0, 1),
        (0, 4),
        (1, 2),
        (4, 21),
        (4, 65_535),
        (5, 0),
        (6, 0),
        (7, 0),
        (5, 10_001),
        (6, 10_001),
        (7, 1_000),
        (7, 65_535),
    ] {
        assert_eq!(Lent::new().list(&changed(index, bad)), refused(2, 0));
    }
    assert_eq!(Lent::new().list(&changed(0, 65_535)), refused(2, 0));
}

#[test]
fn the_blade_is_word_5_and_reaches_20() {
    for blade in 0..=20 {
        let words = changed(4, blade);
        assert!(Lent::new().list(&words).is_ok(), "b {blade}");
        assert_eq!(Job::from_words(&words).unwrap().blade, blade);
    }
    // As many types as the blade is wide, or as its word would ask for.
    let mut words = job_with_blade(Mode::TwoNonExact, [9, 7], 2, &[[5, 4, 2], [3, 3, 3]]);
    assert!(Lent::new().list(&words).is_ok());
    words[3] = 1;
    words[4] = 2;
    assert_eq!(Lent::new().list(&words), refused(1, 0));
    // The words of a job without a blade are one too few.
    words.remove(4);
    words[3] = 2;
    assert_eq!(Lent::new().list(&words), refused(1, 0));
}

#[test]
fn a_value_of_a_type_names_the_type() {
    for (index, bad) in [
        (8, 0),
        (8, 10_001),
        (9, 0),
        (9, 10_001),
        (10, 0),
        (10, 4_001),
        (11, 2),
        (11, 65_535),
    ] {
        assert_eq!(Lent::new().list(&changed(index, bad)), refused(2, 1));
        assert_eq!(Lent::new().list(&changed(index + 4, bad)), refused(2, 2));
    }
}

#[test]
fn the_board_is_named_before_a_type_and_the_lower_type_first() {
    let mut words = changed(8, 0);
    words[12] = 0;
    assert_eq!(Lent::new().list(&words), refused(2, 1));
    for (index, bad) in [(4, 21), (6, 0), (7, 1_000)] {
        let mut board = words.clone();
        board[index] = bad;
        assert_eq!(Lent::new().list(&board), refused(2, 0));
    }
}

#[test]
fn an_item_larger_than_the_board_is_3_and_beyond_10_000_is_2() {
    for index in [8, 9] {
        assert_eq!(Lent::new().list(&changed(index, 10_000)), refused(3, 1));
        assert_eq!(Lent::new().list(&changed(index, 10_001)), refused(2, 1));
        assert_eq!(Lent::new().list(&changed(index + 4, 10_000)), refused(3, 2));
    }
}

#[test]
fn limits_of_every_type_before_3_and_3_over_all_types_before_4() {
    let mut words = changed(8, 10_000);
    words[14] = 0;
    assert_eq!(Lent::new().list(&words), refused(2, 2));
    let high = job(Mode::TwoNonExact, [9, 7], &[[1, 1, 4_000], [1, 8, 1]]);
    assert_eq!(Lent::new().list(&high), refused(3, 2));
    let demands = job(Mode::TwoNonExact, [9, 7], &[[1, 1, 4_000], [1, 7, 1]]);
    assert_eq!(Lent::new().list(&demands), refused(4, 0));
}

#[test]
fn no_item_is_turned_without_leave() {
    for mode in Mode::ALL {
        let turned = job(mode, [9, 7], &[[7, 9, 1]]);
        assert_eq!(Lent::new().list(&turned), refused(3, 1));
    }
}

#[test]
fn two_types_may_have_equal_sizes() {
    let equal = job(Mode::TwoNonExact, [5, 2], &[[2, 2, 1], [2, 2, 1]]);
    let mut lent = Lent::new();
    let listed = Listed {
        residuals: 1,
        cuts: 4,
    };
    assert_eq!(lent.list(&equal), Ok(listed));
    let cuts = [[0, 2, 0, 1], [0, 4, 0, 1], [1, 2, 0, 0], [1, 4, 0, 0]];
    assert_eq!(lent.cuts[..16], cuts.concat());
    let unfolded = lent.unfold(&equal, &[1, 0, 0, 1]);
    assert_eq!(unfolded.map(|result| result.pieces), Ok(2));
}

#[test]
fn words_are_read_into_a_job() {
    let structured = Job {
        mode: Mode::TwoNonExact,
        sizes: vec![Size {
            width: 9,
            height: 7,
            cost: 1,
        }],
        blade: 0,
        items: vec![
            Item {
                width: 5,
                height: 4,
                demand: 2,
                leave: false,
            },
            Item {
                width: 3,
                height: 3,
                demand: 3,
                leave: false,
            },
        ],
    };
    assert_eq!(Job::from_words(&job_a()), Ok(structured));
}

#[test]
fn the_four_modes_are_read_from_their_two_numbers() {
    for (stages, exact, mode) in [
        (2, 1, Mode::TwoExact),
        (2, 0, Mode::TwoNonExact),
        (3, 1, Mode::ThreeExact),
        (3, 0, Mode::ThreeNonExact),
    ] {
        assert_eq!(Mode::from_numbers(stages, exact), Some(mode));
        assert_eq!(mode.is_two_stage(), stages == 2);
        assert_eq!(mode.is_exact(), exact == 1);
    }
    assert_eq!(Mode::from_numbers(1, 0), None);
    assert_eq!(Mode::from_numbers(4, 1), None);
    assert_eq!(Mode::from_numbers(2, 2), None);
}
