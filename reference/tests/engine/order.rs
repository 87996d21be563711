//! The order of refusals (document 01, "Where each number is given", and the paragraph after the
//! table): rows from the top, in a row lower numbers first, each over all its places.

use crate::common::boards;
use crate::common::jobs::{job, job_a, PRICES_A};
use crate::common::lent::{
    full_counts, junk, Lent, COUNTS, CUTS, LEAST, OFFCUTS, PLACEMENTS, PLATES,
};
use crate::common::refused;
use crate::common::texts::{assert_text, job_text, lines, refusal};
use reference::{fold_text, Mode};

const GOOD: [u16; 9] = [1, 0, 1, 1, 1, 1, 0, 0, 0];

/// Job A with type 2 wider than the board.
fn too_large() -> Vec<u16> {
    job(Mode::TwoNonExact, [9, 7], &[[5, 4, 2], [10, 3, 3]])
}

/// Job A with demands that add up to 4,001.
fn too_many() -> Vec<u16> {
    job(Mode::TwoNonExact, [9, 7], &[[5, 4, 4_000], [3, 3, 1]])
}

/// A job with 10,999 plate types: 6.
fn too_many_plates() -> Vec<u16> {
    job(Mode::TwoNonExact, [10_000, 1_000], &[[1, 1, 1]])
}

#[test]
fn price_words_stand_before_the_job_row() {
    for price_word in [1, 2, 8, 9] {
        let mut prices = PRICES_A.to_vec();
        prices.push(0);
        prices[price_word - 1] = 10_000;
        let answer = refused(2, price_word as u32);
        assert_eq!(Lent::new().test_prices(&too_large(), &prices), answer);
        assert_eq!(Lent::new().test_prices(&too_many(), &prices), answer);
        assert_eq!(Lent::new().test_prices(&job_a(), &prices), answer);
    }
    assert_eq!(Lent::new().test_prices(&too_large(), &[0]), refused(2, 1));
    assert_eq!(
        Lent::new().test_prices(&too_large(), &PRICES_A),
        refused(3, 2)
    );
}

#[test]
fn price_words_stand_after_the_jobs_words() {
    let mut words = too_large();
    words[8] = 0;
    assert_eq!(Lent::new().test_prices(&words, &[0]), refused(2, 1));
    words[12] = 9;
    words[8] = 5;
    words[14] = 0;
    assert_eq!(Lent::new().test_prices(&words, &[0]), refused(2, 2));
    words.pop();
    assert_eq!(Lent::new().test_prices(&words, &[0]), refused(1, 0));
}

#[test]
fn layout_words_stand_between_the_jobs_words_and_the_job_row() {
    let short = [1, 1, 1];
    let outside = [1, 0, 1, 1, 1, 3, 0, 0, 0];
    let mut words = too_large();
    assert_eq!(Lent::new().fold_words(&words, &short), refused(1, 1));
    assert_eq!(Lent::new().fold_words(&words, &outside), refused(2, 1));
    assert_eq!(Lent::new().fold_words(&words, &GOOD), refused(3, 2));
    assert_eq!(Lent::new().fold_words(&too_many(), &short), refused(1, 1));
    assert_eq!(Lent::new().fold_words(&too_many(), &outside), refused(2, 1));
    assert_eq!(Lent::new().fold_words(&too_many(), &GOOD), refused(4, 0));
    words[10] = 0;
    assert_eq!(Lent::new().fold_words(&words, &short), refused(2, 1));
    words[4] = 21;
    assert_eq!(Lent::new().fold_words(&words, &short), refused(2, 0));
    words.pop();
    assert_eq!(Lent::new().fold_words(&words, &short), refused(1, 0));
}

#[test]
fn cut_short_goes_before_a_value_in_words_but_not_in_a_text() {
    let mut layouts = vec![0, 0, 1, 1, 1, 1, 0, 0, 0];
    layouts.extend(GOOD);
    layouts.extend([1, 1]);
    assert_eq!(Lent::new().fold_words(&job_a(), &layouts), refused(1, 3));
    let mut text = job_text(&job_a());
    text.extend(lines(&[
        &[7, 0, 0, 1, 1, 1, 1, 0, 0, 0],
        &[7, 1, 0, 1, 1, 1, 1, 0, 0, 0],
    ]));
    text.extend(lines(&[&[7, 1, 1]]));
    assert_text(&fold_text(&text), &refusal(2, 5));
}

#[test]
fn a_refused_job_empties_buffers_of_any_length() {
    for length in [0, 1, 5, PLATES - 1] {
        let [mut plates, mut cuts] = [junk(length), junk(2 * length)];
        let mut counts = junk(length + 3);
        let [mut placements, mut offcuts] = [junk(length + 4), junk(length + 5)];
        let words = too_large();
        let passed = junk(length);
        let answer = reference::list(&words, &mut plates, &mut cuts);
        assert_eq!(answer, refused(3, 2));
        let [lent, last] = [&mut placements, &mut offcuts];
        let answer = reference::unfold(&words, &passed, LEAST, &mut plates, &mut cuts, lent, last);
        assert_eq!(answer, refused(3, 2));
        let answer = reference::fold(&words, &GOOD, &mut plates, &mut cuts, &mut counts);
        assert_eq!(answer, refused(3, 2));
        for buffer in [&plates, &cuts, &counts, &placements, &offcuts] {
            assert!(buffer.iter().all(|&word| word == 0));
        }
        assert_eq!(passed, junk(length));
    }
}

#[test]
fn buffers_stand_after_the_job_row_and_before_the_model() {
    let words = too_many_plates();
    let [mut plates, mut cuts] = [junk(PLATES), junk(CUTS)];
    let mut counts = junk(COUNTS);
    let [mut placements, mut offcuts] = [junk(PLACEMENTS), junk(OFFCUTS)];
    let short = vec![0; COUNTS - 1];
    let answer = reference::test_plan(&words, &short, &mut plates, &mut cuts);
    assert_eq!(answer, refused(5, 3));
    let [lent, last] = [&mut placements[1..], &mut offcuts[1..]];
    let answer = reference::unfold(&words, &short, LEAST, &mut plates, &mut cuts, lent, last);
    assert_eq!(answer, refused(5, 3));
    let answer = reference::fold(&words, &GOOD, &mut plates, &mut cuts, &mut counts[1..]);
    assert_eq!(answer, refused(5, 3));
    let answer = reference::test_plan(&too_many(), &short, &mut plates, &mut cuts);
    assert_eq!(answer, refused(4, 0));
    let answer = reference::test_plan(&words, &full_counts(&[]), &mut plates, &mut cuts);
    assert_eq!(answer, refused(6, 0));
}

#[test]
fn the_model_stands_before_plan_prices_and_layouts() {
    let words = too_many_plates();
    let mut past = full_counts(&[]);
    past[COUNTS - 1] = 1;
    assert_eq!(Lent::new().test_plan(&words, &past), refused(6, 0));
    assert_eq!(Lent::new().unfold(&words, &past), refused(6, 0));
    assert_eq!(Lent::new().test_prices(&words, &[]), refused(6, 0));
    let wrong_turn = [2, 0, 1, 1, 1, 1, 0, 0, 0];
    assert_eq!(Lent::new().fold(&words, &[wrong_turn]), refused(6, 0));
    let many = vec![GOOD; 4_001];
    assert_eq!(Lent::new().fold(&words, &many), refused(6, 0));
}

#[test]
fn the_plan_row_runs_8_10_11_12_each_over_all_its_places() {
    let words = job_a();
    let mut counts = full_counts(&[0, 0, 0, 4_001, 0, 0, 0, 0]);
    counts[COUNTS - 1] = 1;
    assert_eq!(Lent::new().test_plan(&words, &counts), refused(8, 8_192));
    counts[8] = 1;
    assert_eq!(Lent::new().test_plan(&words, &counts), refused(8, 9));
    counts[8] = 0;
    counts[COUNTS - 1] = 0;
    assert_eq!(Lent::new().test_plan(&words, &counts), refused(10, 0));
    counts[3] = 4_000;
    assert_eq!(Lent::new().test_plan(&words, &counts), refused(11, 1));
    counts[3] = 0;
    counts[4] = 4_000;
    // Type 2 is short, and plate 3 is overdrawn.
    assert_eq!(Lent::new().test_plan(&words, &counts), refused(11, 2));
    counts[4] = 2;
    counts[7] = 3;
    assert_eq!(Lent::new().test_plan(&words, &counts), refused(12, 3));
}

#[test]
fn a_short_type_40_goes_before_an_overdrawn_plate_1() {
    let items = vec![[1, 1, 1]; 40];
    let words = job(Mode::TwoNonExact, [3, 1], &items);
    let mut counts = vec![0; 120];
    counts[40..80].fill(1);
    assert_eq!(Lent::new().test_plan(&words, &counts), refused(12, 1));
    counts[79] = 0;
    assert_eq!(Lent::new().test_plan(&words, &counts), refused(11, 40));
}

#[test]
fn the_prices_row_runs_13_14() {
    let mut over = PRICES_A.to_vec();
    over[5] = 0;
    assert_eq!(Lent::new().test_prices(&job_a(), &over), refused(14, 5));
    over.push(0);
    assert_eq!(Lent::new().test_prices(&job_a(), &over), refused(13, 0));
    assert_eq!(Lent::new().test_prices(&job_a(), &[]), refused(13, 0));
    assert_eq!(Lent::new().test_prices(&too_large(), &[]), refused(3, 2));
}

/// Layouts for job A with a fault of each number from the layouts row but 10, the later in the
/// row the earlier in the lines: 18 on line 1, 17 on board 2, 16 on board 3, 15 on the last.
const FAULTS: [[u16; 9]; 7] = [
    [1, 0, 1, 1, 1, 1, 9, 0, 0],
    [2, 0, 1, 1, 1, 1, 0, 0, 0],
    [2, 0, 1, 2, 1, 1, 5, 0, 0],
    [3, 0, 1, 1, 1, 2, 0, 0, 0],
    [3, 0, 1, 1, 2, 2, 0, 3, 0],
    [4, 0, 1, 1, 1, 1, 0, 0, 0],
    [6, 0, 1, 1, 1, 1, 0, 0, 0],
];

#[test]
fn the_layouts_row_runs_10_15_16_17_18_11() {
    let words = job_a();
    let mut lines = FAULTS.to_vec();
    let mut many = lines.clone();
    many.resize(4_001, GOOD);
    assert_eq!(Lent::new().fold(&words, &many), refused(10, 0));
    assert_eq!(Lent::new().fold(&words, &lines), refused(15, 7));
    lines[6][0] = 5;
    assert_eq!(Lent::new().fold(&words, &lines), refused(16, 4));
    lines[4] = [3, 0, 1, 2, 1, 2, 3, 0, 0];
    assert_eq!(Lent::new().fold(&words, &lines), refused(17, 2));
    lines[2] = [2, 0, 1, 2, 1, 2, 5, 0, 0];
    assert_eq!(Lent::new().fold(&words, &lines), refused(18, 1));
    lines[0][6] = 0;
    assert_eq!(Lent::new().fold(&words, &lines), boards(5));
    lines.remove(2);
    assert_eq!(Lent::new().fold(&words, &lines), refused(11, 2));
}

#[test]
fn the_plan_row_is_no_part_of_folding() {
    // 4,000 boards with one item each: the counts add up to the limit, and no more is asked.
    let words = job(Mode::TwoNonExact, [5, 4], &[[5, 4, 1]]);
    let lines: Vec<[u16; 9]> = (1..=4_000)
        .map(|board| [board, 0, 1, 1, 1, 1, 0, 0, 0])
        .collect();
    let mut lent = Lent::new();
    assert_eq!(lent.fold(&words, &lines), boards(4_000));
    assert_eq!(lent.counts[0], 4_000);
}
