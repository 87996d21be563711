//! Several board sizes (document 02, Six): the worked cases, and wrong readings that they shut out.

use crate::common::jobs::{job_a, job_on, job_on_sizes};
use crate::common::lent::Lent;
use crate::common::plain;
use crate::common::{outlay, refused};
use reference::{Bound, Listed, Mode, Refusal, Unfolded};

const ITEMS_A: [[u16; 3]; 2] = [[5, 4, 2], [3, 3, 3]];

fn listed(residuals: u32, cuts: u32) -> Result<Listed, Refusal> {
    Ok(Listed { residuals, cuts })
}

/// Job A's items on sizes.
fn job_a_on(sizes: &[[u16; 3]]) -> Vec<u16> {
    job_on_sizes(Mode::TwoNonExact, sizes, &ITEMS_A)
}

#[test]
fn a_residual_equal_to_a_size_is_a_residual_type_of_its_own() {
    let words = job_a_on(&[[9, 7, 3], [9, 3, 1]]);
    let mut lent = Lent::new();
    assert_eq!(lent.list(&words), listed(5, 9));
    let plates = [
        [9, 7, 1, 3],
        [9, 3, 1, 1],
        [9, 3, 1, 0],
        [4, 4, 2, 0],
        [9, 4, 1, 0],
        [6, 3, 2, 0],
        [3, 3, 2, 0],
    ];
    assert_eq!(lent.plates[..28], plates.concat());
    // Cut 1 leaves plate type 2, not the size; the size itself is cut by cut 3.
    let cuts = [[0, 2, 2, 3], [0, 4, 4, 5], [1, 4, 0, 5], [2, 4, 0, 5]];
    assert_eq!(lent.cuts[..16], cuts.concat());
    // The size needs no supply, the residual type of the same sides does.
    let counts = |on_size, on_residual| [2, 0, on_size, on_residual, 2, 0, 0, 0, 0];
    assert_eq!(lent.test_plan(&words, &counts(1, 0)), outlay(3, 7));
    assert_eq!(lent.test_plan(&words, &counts(0, 1)), outlay(2, 6));
    assert_eq!(lent.test_plan(&words, &counts(0, 3)), refused(12, 2));
}

#[test]
fn a_size_that_nothing_fits_keeps_its_number_and_has_no_cut() {
    let words = job_a_on(&[[2, 2, 1], [9, 7, 1]]);
    let mut lent = Lent::new();
    assert_eq!(lent.list(&words), listed(5, 8));
    assert_eq!(lent.plates[..8], [2, 2, 1, 1, 9, 7, 1, 1]);
    assert!(lent.cuts.chunks(4).take(8).all(|cut| cut[0] > 0));
    assert_eq!(lent.cuts[..8], [1, 2, 2, 3, 1, 4, 4, 5]);
    // The same plan, the same boards, all of size 1.
    assert_eq!(
        lent.test_plan(&words, &[2, 0, 1, 1, 0, 0, 1, 0]),
        outlay(2, 2)
    );
    lent.unfold(&words, &[2, 0, 1, 1, 0, 0, 1, 0]).unwrap();
    assert!(lent.lines().iter().all(|line| line[1] == 1));
}

#[test]
fn equal_sizes_have_numbers_and_cuts_of_their_own() {
    let sizes = [[9, 7, 1], [9, 7, 1]];
    let words = job_on_sizes(Mode::TwoNonExact, &sizes, &[[9, 7, 1]]);
    let mut lent = Lent::new();
    assert_eq!(lent.list(&words), listed(0, 2));
    assert_eq!(lent.cuts[..8], [0, 2, 0, 0, 1, 2, 0, 0]);
    // They may differ in cost alone.
    let sizes = [[9, 7, 999], [9, 7, 1]];
    let words = job_on_sizes(Mode::TwoNonExact, &sizes, &[[9, 7, 3]]);
    assert_eq!(lent.test_plan(&words, &[1, 2]), outlay(3, 1_001));
    assert_eq!(lent.test_plan(&words, &[3, 0]), outlay(3, 2_997));
}

/// The job of case 6d: 9 by 7 at 5 and 3 by 3 at 1, two items of 3 by 3.
fn two_sizes() -> Vec<u16> {
    let sizes = [[9, 7, 5], [3, 3, 1]];
    job_on_sizes(Mode::TwoNonExact, &sizes, &[[3, 3, 2]])
}

#[test]
fn boards_of_a_set_come_in_any_order_of_sizes_and_are_unfolded_in_rising_number() {
    let words = two_sizes();
    let mut lent = Lent::new();
    let falling = [[1, 1, 1, 1, 1, 1, 0, 0, 0], [2, 0, 1, 1, 1, 1, 0, 0, 0]];
    assert_eq!(lent.fold(&words, &falling), outlay(2, 6));
    let counts = lent.counts.clone();
    assert_eq!(lent.test_plan(&words, &counts), outlay(2, 6));
    lent.unfold(&words, &counts).unwrap();
    let rising = [[1, 0, 1, 1, 1, 1, 0, 0, 0], [2, 1, 1, 1, 1, 1, 0, 0, 0]];
    assert_eq!(lent.lines(), rising);
    assert_eq!(lent.fold(&words, &rising), outlay(2, 6));
    assert_eq!(lent.counts, counts);
}

#[test]
fn a_size_other_than_that_of_the_boards_first_line_is_15() {
    let words = two_sizes();
    let fold = |lines: &[[u16; 9]]| Lent::new().fold(&words, lines);
    let first = [1, 1, 1, 1, 1, 1, 0, 0, 0];
    assert_eq!(fold(&[first, [1, 0, 1, 2, 1, 1, 3, 0, 0]]), refused(15, 2));
    assert_eq!(fold(&[first, [1, 0, 2, 1, 1, 1, 0, 3, 0]]), refused(15, 2));
    // It is the line that differs that is named, not the board's first; and 15 goes before 17.
    let first = [1, 0, 1, 1, 1, 1, 0, 0, 0];
    let second = [1, 0, 1, 2, 1, 1, 3, 0, 0];
    let third = [1, 1, 1, 3, 1, 1, 6, 0, 0];
    assert_eq!(fold(&[first, second, third]), refused(15, 3));
    // In one pass with the turn: the lowest line first, whichever fault it has.
    let out_of_turn = [3, 0, 1, 1, 1, 1, 0, 0, 0];
    assert_eq!(fold(&[first, third, out_of_turn]), refused(15, 2));
    assert_eq!(fold(&[first, second, out_of_turn, third]), refused(15, 3));
    assert_eq!(fold(&[first, second, third, out_of_turn]), refused(15, 3));
    // The next board has a size of its own.
    assert_eq!(fold(&[first, [2, 1, 1, 1, 1, 1, 0, 0, 0]]), outlay(2, 6));
}

#[test]
fn a_size_of_t_or_more_is_2() {
    let words = two_sizes();
    for size in [2, 3, 6, 65_535] {
        let lines = [[1, 0, 1, 1, 1, 1, 0, 0, 0], [2, size, 1, 1, 1, 1, 0, 0, 0]];
        assert_eq!(Lent::new().fold(&words, &lines), refused(2, 2));
    }
    // In words 2 over all lines goes before 19, and both before 3.
    let large = job_on_sizes(Mode::TwoNonExact, &[[9, 7, 5], [3, 3, 1]], &[[10, 3, 1]]);
    let lines = [[1, 0, 1, 1, 1, 1, 0, 0, 1], [1, 2, 1, 2, 1, 1, 0, 0, 0]];
    assert_eq!(Lent::new().fold(&large, &lines), refused(2, 2));
    assert_eq!(Lent::new().fold(&large, &lines[..1]), refused(19, 1));
}

#[test]
fn a_board_has_the_sides_of_its_own_size() {
    let words = two_sizes();
    let beside = |size| {
        [
            [1, size, 1, 1, 1, 1, 0, 0, 0],
            [1, size, 1, 2, 1, 1, 3, 0, 0],
        ]
    };
    let above = |size| {
        [
            [1, size, 1, 1, 1, 1, 0, 0, 0],
            [1, size, 2, 1, 1, 1, 0, 3, 0],
        ]
    };
    let mut lent = Lent::new();
    for two in [beside, above] {
        assert_eq!(lent.fold(&words, &two(0)), outlay(1, 5));
    }
    // Past the width: the only strip. Past the height: the second.
    assert_eq!(lent.fold(&words, &beside(1)), refused(17, 1));
    assert_eq!(lent.fold(&words, &above(1)), refused(17, 2));
}

#[test]
fn the_sizes_are_all_limits_of_place_0_before_any_type() {
    let words = job_on(
        Mode::TwoNonExact,
        &[[9, 7, 3], [9, 3, 1]],
        2,
        &[[5, 4, 2, 0], [3, 3, 3, 1]],
    );
    assert!(Lent::new().list(&words).is_ok());
    let mut faulty = words.clone();
    faulty[11] = 0;
    assert_eq!(Lent::new().list(&faulty), refused(2, 1));
    for (index, outside) in [(5, 0), (6, 10_001), (7, 0), (8, 0), (9, 0), (10, 1_000)] {
        let mut faulty = faulty.clone();
        faulty[index] = outside;
        assert_eq!(Lent::new().list(&faulty), refused(2, 0));
        faulty.pop();
        assert_eq!(Lent::new().list(&faulty), refused(1, 0));
    }
    for cost in [1, 2, 998, 999] {
        let mut good = words.clone();
        good[10] = cost;
        assert!(Lent::new().list(&good).is_ok());
    }
}

#[test]
fn the_length_that_t_and_n_ask_for_goes_before_their_limits() {
    let of = |sizes: u16, types: u16, length: usize| {
        let mut words = vec![2, 0, sizes, types, 0];
        words.resize(length, 1);
        Lent::new().list(&words)
    };
    assert_eq!(of(7, 1, 5 + 21 + 4), refused(2, 0));
    assert_eq!(of(7, 1, 5 + 21 + 3), refused(1, 0));
    assert_eq!(of(0, 1, 5 + 4), refused(2, 0));
    assert_eq!(of(0, 1, 5 + 3 + 4), refused(1, 0));
    assert_eq!(of(0, 0, 5), refused(2, 0));
    // Three words a size: 21,846 sizes are 65,538 words, which 16 bits take for 2; with 16,384
    // types, of four words, more are 0.
    assert_eq!(of(21_846, 1, 5 + 2 + 4), refused(1, 0));
    assert_eq!(of(1, 16_384, 5 + 3), refused(1, 0));
    assert_eq!(of(21_846, 1, 5 + 65_538 + 4), refused(2, 0));
    assert_eq!(of(65_535, 65_535, 5 + 7 * 65_535), refused(2, 0));
    // t is word 3 and n word 4: exchanged, the length is another.
    assert_eq!(of(2, 1, 5 + 6 + 4), listed(0, 2));
    assert_eq!(of(1, 2, 5 + 6 + 4), refused(1, 0));
}

#[test]
fn an_item_must_fit_some_size_in_some_permitted_position() {
    let sizes = [[10, 2, 1], [3, 5, 1]];
    let on = |item: [u16; 4]| Lent::new().list(&job_on(Mode::ThreeExact, &sizes, 0, &[item]));
    assert!(on([10, 2, 1, 0]).is_ok());
    assert!(on([3, 5, 1, 0]).is_ok());
    // One side fits one size, the other side the other.
    assert_eq!(on([10, 5, 1, 1]), refused(3, 1));
    // Turned it fits the second, as it stands neither.
    assert_eq!(on([5, 3, 1, 0]), refused(3, 1));
    assert_eq!(on([5, 3, 1, 1]), listed(0, 1));
    // Unturned it fits the second, turned the first: both are cuts.
    assert_eq!(on([2, 5, 1, 1]), listed(1, 3));
    // The blade plays no part.
    let words = job_on(
        Mode::TwoNonExact,
        &[[1, 1, 1], [5, 5, 1]],
        20,
        &[[5, 5, 1, 0]],
    );
    assert_eq!(Lent::new().list(&words), listed(0, 1));
}

#[test]
fn the_sizes_are_among_the_2_048_plate_types() {
    // 2,046 residual types of one size, and a second size of which nothing is cut.
    let words = |width, sizes: usize| {
        let mut all = vec![[width, 1, 1]];
        all.resize(sizes, [1, 1, 1]);
        job_on_sizes(Mode::TwoNonExact, &all, &[[2, 1, 1]])
    };
    assert_eq!(Lent::new().list(&words(4_097, 1)), listed(2_047, 2_048));
    assert_eq!(Lent::new().list(&words(4_097, 2)), refused(6, 0));
    assert_eq!(Lent::new().list(&words(4_095, 2)), listed(2_046, 2_047));
    assert_eq!(Lent::new().list(&words(4_095, 3)), refused(6, 0));
    assert_eq!(Lent::new().list(&words(4_087, 6)), listed(2_042, 2_043));
    assert_eq!(Lent::new().list(&words(4_089, 6)), refused(6, 0));
}

#[test]
fn twelve_names_the_plate_number_and_prices_begin_after_the_sizes() {
    let words = job_a_on(&[[9, 7, 3], [9, 7, 3], [9, 7, 3]]);
    let mut lent = Lent::new();
    assert_eq!(lent.list(&words), listed(5, 12));
    // Plate type 3 is the first residual type; on size 0 its cut is cut 1, which leaves it.
    let (_, cuts) = plain::listing(&words);
    assert_eq!(cuts[6], [3, 4, 0, 6]);
    let mut counts = vec![0; 12];
    counts[..6].copy_from_slice(&[2, 3, 0, 0, 0, 0]);
    assert_eq!(lent.test_plan(&words, &counts), outlay(5, 15));
    counts[6] = 3;
    assert_eq!(lent.test_plan(&words, &counts), refused(12, 3));
    // One price for each of five residual types, none for the sizes.
    let prices = |many| [vec![1, 1, 0], vec![0; many]].concat();
    assert_eq!(lent.test_prices(&words, &prices(4)), refused(13, 0));
    assert_eq!(lent.test_prices(&words, &prices(6)), refused(13, 0));
    assert_eq!(lent.test_prices(&words, &prices(7)), refused(13, 0));
    assert_eq!(lent.test_prices(&words, &prices(5)), refused(14, 9));
}

#[test]
fn a_cut_on_a_size_may_be_priced_up_to_d_times_its_cost() {
    let sizes = [[9, 7, 1], [9, 7, 3], [9, 7, 999]];
    let words = |cost: &[u16]| {
        let sizes: Vec<[u16; 3]> = cost.iter().map(|&cost| [9, 7, cost]).collect();
        job_on_sizes(Mode::TwoNonExact, &sizes, &[[9, 7, 2]])
    };
    let mut lent = Lent::new();
    let test =
        |lent: &mut Lent, costs: &[u16], prices: [u16; 2]| lent.test_prices(&words(costs), &prices);
    assert_eq!(test(&mut lent, &[3], [2, 6]), Ok(Bound { sum: 12, d: 2 }));
    assert_eq!(test(&mut lent, &[3], [2, 7]), refused(14, 1));
    // The lowest cut over its limit: cut 2, on the second size.
    assert_eq!(test(&mut lent, &[3, 1], [2, 6]), refused(14, 2));
    assert_eq!(test(&mut lent, &[1, 3], [2, 6]), refused(14, 1));
    // D times cost passes 16 bits: 9,999 times 999; no price reaches it.
    let bound = Bound {
        sum: 19_998,
        d: 9_999,
    };
    assert_eq!(test(&mut lent, &[999], [9_999, 9_999]), Ok(bound));
    let bound = Bound { sum: 19_998, d: 66 };
    assert_eq!(test(&mut lent, &[999], [66, 9_999]), Ok(bound));
    // 66 times 999 is 65,934, which 16 bits take for 398.
    let all = job_on_sizes(Mode::TwoNonExact, &sizes, &[[9, 7, 2]]);
    assert_eq!(
        lent.test_prices(&all, &[9_999, 9_999]),
        Ok(Bound {
            sum: 19_998,
            d: 9_999
        })
    );
    assert_eq!(lent.test_prices(&all, &[9_998, 9_999]), refused(14, 1));
}

#[test]
fn cheapest_compares_products_of_64_bits() {
    let words = job_on_sizes(Mode::TwoNonExact, &[[3, 3, 999]], &[[3, 3, 4_000]]);
    let mut lent = Lent::new();
    assert_eq!(lent.test_plan(&words, &[4_000]), outlay(4_000, 3_996_000));
    let bound = lent.test_prices(&words, &[9_999, 9_999]).unwrap();
    assert_eq!((bound.sum, bound.d), (39_996_000, 9_999));
    assert!(!bound.is_cheapest(3_996_000));
    // A product of 32 bits wraps to 731,629 and would be below the sum.
    let bound = lent.test_prices(&words, &[1_075, 9_999]).unwrap();
    assert!(!bound.is_cheapest(3_996_000));
    assert_eq!(3_995_999_u32.wrapping_mul(1_075), 731_629);
    // A cost that the bound reaches.
    let words = job_on_sizes(Mode::TwoNonExact, &[[3, 3, 9]], &[[3, 3, 10]]);
    let bound = lent.test_prices(&words, &[1_111, 9_999]).unwrap();
    assert!(bound.is_cheapest(90) && !bound.is_cheapest(91));
}

#[test]
fn unfolding_gives_boards_and_not_their_cost_and_offcuts_keep_six_words() {
    let words = job_a_on(&[[9, 7, 3], [9, 3, 100]]);
    let mut lent = Lent::new();
    let counts = [2, 0, 1, 0, 2, 0, 0, 0, 0];
    assert_eq!(lent.test_plan(&words, &counts), outlay(3, 106));
    let unfolded = Unfolded {
        boards: 3,
        pieces: 5,
        offcuts: 3,
    };
    assert_eq!(lent.unfold_with(&words, &counts, [6, 3]), Ok(unfolded));
    let lines = [
        [1, 0, 1, 1, 1, 1, 0, 0, 0],
        [1, 0, 1, 2, 1, 2, 5, 0, 0],
        [2, 0, 1, 1, 1, 1, 0, 0, 0],
        [2, 0, 1, 2, 1, 2, 5, 0, 0],
        [3, 1, 1, 1, 1, 2, 0, 0, 0],
    ];
    assert_eq!(lent.lines(), lines);
    let offcuts = [[1, 0, 4, 9, 3, 1], [2, 0, 4, 9, 3, 1], [3, 3, 0, 6, 3, 1]];
    assert_eq!(lent.left_over(), offcuts);
}

#[test]
fn job_a_with_one_size_is_what_it_was() {
    let words = job_a();
    assert_eq!(words[..8], [2, 0, 1, 2, 0, 9, 7, 1]);
    assert_eq!(words, job_a_on(&[[9, 7, 1]]));
}
