//! Every call and text ends on every input: faulty inputs of all kinds, and the refusal numbers
//! that each can give (document 01, "Where each number is given").

use crate::common::check;
use crate::common::jobs::{job, random_job, words_of};
use crate::common::lent::{
    full_counts, junk, Lent, COUNTS, CUTS, LEAST, OFFCUTS, PLACEMENTS, PLATES,
};
use crate::common::plans::random_plan;
use crate::common::prices::{area_prices, words_of as price_words};
use crate::common::random::Random;
use crate::common::sets::random_set;
use crate::common::texts::{job_text, layout_text, plan_text_of, price_text_on};
use reference::listing::FULL;
use reference::{fold_text, saw_text, Job, Listing, Mode, Refusal};
use std::collections::BTreeSet;

/// The refusal numbers met; 0 stands for success.
#[derive(Default)]
struct Numbers(BTreeSet<u32>);

impl Numbers {
    fn meet<T>(&mut self, answer: Result<T, Refusal>) {
        self.0
            .insert(answer.err().map_or(0, |refusal| refusal.number));
    }

    /// The number on a text's only line of kind 9, or 0.
    fn meet_text(&mut self, output: &[u8]) {
        let refused = output.starts_with(b"        9") && output.len() == 28;
        let number = String::from_utf8_lossy(&output[9..18]).trim().parse();
        self.0.insert(if refused { number.unwrap() } else { 0 });
    }

    fn assert(&self, expected: &[u32]) {
        assert_eq!(self.0, expected.iter().copied().collect());
    }
}

const WORDS: [u16; 14] = [
    0, 1, 2, 3, 4, 5, 7, 40, 41, 4_000, 4_001, 9_999, 10_000, 10_001,
];

/// Changes, takes away or adds a word, now and then.
fn spoil(random: &mut Random, words: &mut Vec<u16>) {
    while random.once_in(2) {
        let index = random.below(words.len().max(1));
        match random.below(8) {
            _ if words.is_empty() => words.push(random.pick(&WORDS)),
            0 => words.truncate(words.len() - 1),
            1 => words.push(random.pick(&WORDS)),
            2..=4 => words[index] = random.pick(&WORDS),
            5 => words[index] = words[index].wrapping_add(1),
            6 => words[index] = words[index].wrapping_sub(1),
            _ => words[index] = random.between(0, 65_535),
        }
    }
}

/// A good job now and then spoilt, and its true listing.
struct Input {
    job: Job,
    words: Vec<u16>,
    listing: Listing,
}

fn random_input(random: &mut Random) -> Input {
    let job = random_job(random);
    let mut words = words_of(&job);
    if random.once_in(4) {
        spoil(random, &mut words);
    }
    let listing = Listing::walk(&job, FULL).unwrap();
    Input {
        job,
        words,
        listing,
    }
}

/// Jobs with a plate type or a cut too many.
fn too_large_models() -> [Vec<u16>; 2] {
    [
        job(Mode::TwoNonExact, [10_000, 9], &[[1, 1, 1]]),
        job(Mode::TwoNonExact, [105, 101], &[[1, 1, 1]; 40]),
    ]
}

#[test]
fn the_listing_gives_1_to_7() {
    let mut random = Random::new(51);
    let mut lent = Lent::new();
    let mut numbers = Numbers::default();
    for _ in 0..20_000 {
        let mut input = random_input(&mut random);
        spoil(&mut random, &mut input.words);
        numbers.meet(lent.list(&input.words));
    }
    for words in too_large_models() {
        numbers.meet(lent.list(&words));
        numbers.meet(reference::list(&words, &mut [], &mut []));
    }
    numbers.assert(&[0, 1, 2, 3, 4, 5, 6, 7]);
}

#[test]
fn plan_test_and_unfolding_give_1_to_8_and_10_to_12() {
    let mut random = Random::new(52);
    let mut lent = Lent::new();
    let [mut tests, mut unfoldings] = [Numbers::default(), Numbers::default()];
    for _ in 0..20_000 {
        let input = random_input(&mut random);
        let mut counts = random_plan(&mut random, &input.job, &input.listing);
        spoil(&mut random, &mut counts);
        let answer = lent.test_plan(&input.words, &counts);
        let unfolded = lent.unfold(&input.words, &counts);
        let boards = answer.map(|outlay| outlay.boards);
        assert_eq!(unfolded.map(|result| result.boards), boards);
        tests.meet(answer);
        unfoldings.meet(unfolded);
    }
    for words in too_large_models() {
        tests.meet(lent.test_plan(&words, &[]));
        unfoldings.meet(lent.unfold(&words, &[]));
        tests.meet(reference::test_plan(&words, &[], &mut [], &mut []));
        let answer = reference::unfold(&words, &[], LEAST, &mut [], &mut [], &mut [], &mut []);
        unfoldings.meet(answer);
    }
    tests.assert(&[0, 1, 2, 3, 4, 5, 6, 7, 8, 10, 11, 12]);
    unfoldings.assert(&[0, 1, 2, 3, 4, 5, 6, 7, 8, 10, 11, 12]);
}

#[test]
fn the_price_test_gives_1_to_7_13_and_14() {
    let mut random = Random::new(53);
    let mut lent = Lent::new();
    let mut numbers = Numbers::default();
    for _ in 0..20_000 {
        let input = random_input(&mut random);
        let denominator = random.between(1, 9_999);
        let mut prices = price_words(&area_prices(&input.job, &input.listing, denominator));
        spoil(&mut random, &mut prices);
        numbers.meet(lent.test_prices(&input.words, &prices));
    }
    for words in too_large_models() {
        numbers.meet(lent.test_prices(&words, &[]));
        numbers.meet(reference::test_prices(&words, &[], &mut [], &mut []));
    }
    numbers.assert(&[0, 1, 2, 3, 4, 5, 6, 7, 13, 14]);
}

#[test]
fn folding_gives_1_to_7_10_11_and_15_to_19() {
    let mut random = Random::new(54);
    let mut lent = Lent::new();
    let mut numbers = Numbers::default();
    for _ in 0..20_000 {
        let input = random_input(&mut random);
        let set = random_set(&mut random, &input.job);
        let mut layouts = check::lines(&input.job, &set).concat();
        spoil(&mut random, &mut layouts);
        numbers.meet(lent.fold_words(&input.words, &layouts));
    }
    let many = vec![[1, 0, 1, 1, 1, 1, 0, 0, 0]; 4_001];
    numbers.meet(lent.fold(&job(Mode::TwoExact, [1, 1], &[[1, 1, 1]]), &many));
    for words in too_large_models() {
        numbers.meet(lent.fold(&words, &many));
        numbers.meet(reference::fold(&words, &[], &mut [], &mut [], &mut []));
    }
    numbers.assert(&[0, 1, 2, 3, 4, 5, 6, 7, 10, 11, 15, 16, 17, 18, 19]);
}

/// Changes bytes, groups and lines of a text.
fn spoil_text(random: &mut Random, text: &mut Vec<u8>) {
    while random.once_in(2) {
        let at = random.below(text.len().max(1));
        match random.below(6) {
            _ if text.is_empty() => text.push(b' '),
            0 => drop(text.remove(at)),
            1 => text.insert(at, random.pick(b" 0123456789\n")),
            2 => text.truncate(at),
            3 => text[at] = random.pick(b" 0123456789\n"),
            _ => spoil_group(random, text, at),
        }
    }
}

/// Writes another number into the group around a byte, where there is one.
fn spoil_group(random: &mut Random, text: &mut [u8], at: usize) {
    let start = text[..at]
        .iter()
        .rposition(|&byte| byte == b'\n')
        .map_or(0, |end| end + 1);
    let group = start + (at - start) / 9 * 9;
    let number = match random.once_in(2) {
        true => u32::from(random.pick(&WORDS)),
        false => u32::from(random.between(0, 9)),
    };
    if group + 9 <= text.len() {
        text[group..group + 9].copy_from_slice(format!("{number:>9}").as_bytes());
    }
}

#[test]
fn saw_texts_give_1_to_14_but_5_and_19_and_20() {
    let mut random = Random::new(55);
    let mut numbers = Numbers::default();
    for _ in 0..40_000 {
        let input = random_input(&mut random);
        let words = words_of(&input.job);
        let counts = random_plan(&mut random, &input.job, &input.listing);
        let mut text = job_text(&words);
        text.extend(plan_text_of(&words, &counts));
        if random.once_in(2) {
            let prices = area_prices(&input.job, &input.listing, 100);
            text.extend(price_text_on(input.job.sizes.len(), &prices));
        }
        spoil_text(&mut random, &mut text);
        numbers.meet_text(&saw_text(&text));
    }
    for words in too_large_models() {
        numbers.meet_text(&saw_text(&job_text(&words)));
    }
    numbers.assert(&[0, 1, 2, 3, 4, 6, 7, 8, 9, 10, 11, 12, 13, 14, 19, 20]);
}

#[test]
fn fold_texts_give_1_to_4_6_7_10_11_and_15_to_19() {
    let mut random = Random::new(56);
    let mut numbers = Numbers::default();
    for _ in 0..40_000 {
        let input = random_input(&mut random);
        let words = words_of(&input.job);
        let set = random_set(&mut random, &input.job);
        let mut text = job_text(&words);
        text.extend(layout_text(&check::lines(&input.job, &set)));
        spoil_text(&mut random, &mut text);
        numbers.meet_text(&fold_text(&text));
    }
    let many = vec![[1, 0, 1, 1, 1, 1, 0, 0, 0]; 4_001];
    for words in too_large_models().into_iter().chain([
        job(Mode::TwoExact, [1, 1], &[[1, 1, 1]]),
        job(Mode::TwoExact, [1, 1], &[[1, 1, 4_000], [1, 1, 1]]),
    ]) {
        let mut text = job_text(&words);
        text.extend(layout_text(&many));
        numbers.meet_text(&fold_text(&text));
    }
    numbers.assert(&[0, 1, 2, 3, 4, 6, 7, 10, 11, 15, 16, 17, 18, 19]);
}

#[test]
fn words_of_any_content_end_every_call() {
    let mut random = Random::new(57);
    for _ in 0..2_000 {
        let length = random.below(60);
        let words: Vec<u16> = (0..length).map(|_| random.between(0, 65_535)).collect();
        let [mut plates, mut cuts] = [junk(PLATES), junk(CUTS)];
        let mut counts = junk(COUNTS);
        let [mut placements, mut offcuts] = [junk(PLACEMENTS), junk(OFFCUTS)];
        let lengths = [0; 2].map(|_| random.between(0, 65_535));
        let full = full_counts(&words);
        assert!(reference::list(&words, &mut plates, &mut cuts).is_err());
        let good = job(Mode::ThreeExact, [9, 9], &[[3, 3, 1]]);
        let _ = reference::test_plan(&good, &full, &mut plates, &mut cuts);
        let _ = reference::test_prices(&good, &words, &mut plates, &mut cuts);
        let [lent, last] = [&mut placements, &mut offcuts];
        let _ = reference::unfold(&good, &full, lengths, &mut plates, &mut cuts, lent, last);
        let _ = reference::fold(&good, &words, &mut plates, &mut cuts, &mut counts);
    }
}
