//! Texts and calls agree: what the line row admits is answered by a text as by the calls on the
//! same numbers, refusals included, with places that are lines where the table says so.

use crate::common::check;
use crate::common::jobs::{random_job, words_of};
use crate::common::lent::Lent;
use crate::common::plain;
use crate::common::plans::random_plan;
use crate::common::prices::{area_prices, words_of as price_words};
use crate::common::random::Random;
use crate::common::refused;
use crate::common::sets::random_set;
use crate::common::texts::{
    assert_text, job_text, layout_text, line, plan_text_of, price_text_on, refusal,
};
use reference::listing::FULL;
use reference::{fold_text, saw_text, Job, Listing, Refusal};
use std::collections::BTreeMap;

/// A random job, and the same with a size or demands that the job row refuses, or with a type's
/// leave or the blade changed, now and then.
fn random_faulty_job(random: &mut Random) -> (Job, Job) {
    let good = random_job(random);
    let mut faulty = good.clone();
    if random.once_in(6) {
        let which = random.below(good.sizes.len());
        let size = &mut faulty.sizes[which];
        size.width = random.between(1, size.width);
        size.height = random.between(1, size.height);
    }
    if random.once_in(12) {
        faulty.items[0].demand = 4_000;
    }
    if random.once_in(6) {
        faulty.items[0].leave ^= true;
    }
    if random.once_in(8) {
        faulty.sizes[0].cost = random.between(1, 4);
    }
    if random.once_in(8) {
        faulty.blade = random.between(0, 4);
    }
    (good, faulty)
}

/// A line of kind 3: plate, item word and count, and the plate's width, height and stage as shown.
#[derive(Clone, Copy)]
struct CountLine {
    plate: u16,
    item: u16,
    count: u16,
    shown: [u32; 3],
}

impl CountLine {
    fn text(&self) -> Vec<u8> {
        let [w, h, stage] = self.shown;
        let [plate, item, count, turn] =
            [self.plate, self.item / 2, self.count, self.item % 2].map(u32::from);
        line(&[3, plate, item, count, w, h, stage, turn])
    }

    /// Shows the plate of this listing that the line names, if there is one.
    fn show(&mut self, plates: &[[u16; 3]]) {
        if let Some(plate) = plates.get(usize::from(self.plate)) {
            self.shown = plate.map(u32::from);
        }
    }
}

/// The lines of a plan, now and then with one changed, doubled, moved or taken away.
fn random_count_lines(random: &mut Random, job: &[u16], counts: &[u16]) -> Vec<CountLine> {
    let (plates, cuts) = plain::listing(job);
    let counted = cuts.iter().zip(counts).filter(|(_, &count)| count > 0);
    let mut lines: Vec<CountLine> = counted
        .map(|(cut, &count)| CountLine {
            plate: cut[0],
            item: cut[1],
            count,
            shown: plates[usize::from(cut[0])].map(u32::from),
        })
        .collect();
    while random.once_in(2) && !lines.is_empty() {
        let [from, to] = [0, 0].map(|_: i32| random.below(lines.len()));
        match random.below(7) {
            0 => lines.swap(from, to),
            1 => lines.insert(to, lines[from]),
            2 => drop(lines.remove(from)),
            3 => lines[from].plate = random.between(0, 9),
            4 => lines[from].item ^= 1,
            5 => lines[from].count = random.pick(&[1, 2, 3, 50, 4_000]),
            _ => show_another(random, &mut lines[from].shown),
        }
    }
    lines
}

/// Changes one of the three numbers of a plate, or exchanges its sides: by a little, into one that
/// 16 bits take for the same, or into one that no plate has.
fn show_another(random: &mut Random, shown: &mut [u32; 3]) {
    let number = &mut shown[random.below(3)];
    match random.below(6) {
        0 => *number = (*number + 1).min(999_999_999),
        1 => *number = number.saturating_sub(1),
        2 => *number = (*number + 65_536).min(999_999_999),
        3 => *number = 0,
        4 => *number = 999_999_999,
        _ => shown.swap(0, 1),
    }
}

/// The counts of lines, or the refusal 8, 20 or 9; text lines begin after those of the job.
fn counts_of(job: &[u16], lines: &[CountLine], first: u32) -> Result<Vec<u16>, Refusal> {
    let (plates, cuts) = plain::listing(job);
    let mut counts = vec![0; cuts.len()];
    let mut last = None;
    let [mut other_shown, mut not_rising] = [None; 2];
    for (place, line) in (first..).zip(lines) {
        let named = |cut: &[u16; 4]| cut[..2] == [line.plate, line.item];
        let Some(index) = cuts.iter().position(named) else {
            return refused(8, place);
        };
        if plates[usize::from(line.plate)].map(u32::from) != line.shown {
            other_shown = other_shown.or(Some(place));
        }
        if last.is_some_and(|last| last >= index) {
            not_rising = not_rising.or(Some(place));
        }
        last = Some(index);
        counts[index] = line.count;
    }
    match (other_shown, not_rising) {
        (Some(place), _) => refused(20, place),
        (None, Some(place)) => refused(9, place),
        (None, None) => Ok(counts),
    }
}

/// The answer that the calls give to the numbers of a saw text.
fn saw_answer(
    lent: &mut Lent,
    words: &[u16],
    lines: &[CountLine],
    prices: Option<&[u16]>,
) -> Result<Vec<u8>, Refusal> {
    let first = u32::from(words[2] + words[3]) + 2;
    let without_leave = lines.iter().position(|line| {
        let item = &plain::items(words)[4 * (usize::from(line.item / 2) - 1)..][..4];
        line.item % 2 == 1 && (item[3] == 0 || item[0] == item[1])
    });
    if let Some(index) = without_leave {
        return refused(19, first + index as u32);
    }
    lent.list(words)?;
    let counts = counts_of(words, lines, first)?;
    let cost = lent.test_plan(words, &counts)?.cost;
    lent.unfold(words, &counts)?;
    let mut output = layout_text(&lent.lines());
    let last = match prices {
        None => [8, cost, 0, 1, 0],
        Some(prices) => {
            let bound = lent.test_prices(words, prices)?;
            let less = u64::from(cost - 1) * u64::from(bound.d);
            let cheapest = u32::from(less < u64::from(bound.sum));
            [8, cost, bound.sum, bound.d, cheapest]
        }
    };
    output.extend(line(&last));
    Ok(output)
}

#[test]
fn saw_texts_and_calls() {
    let mut random = Random::new(61);
    let mut lent = Lent::new();
    let mut met = BTreeMap::new();
    for _ in 0..12_000 {
        let (good, faulty) = random_faulty_job(&mut random);
        let words = words_of(&faulty);
        let listing = Listing::walk(&good, FULL).unwrap();
        let counts = random_plan(&mut random, &good, &listing);
        let mut lines = random_count_lines(&mut random, &words_of(&good), &counts);
        if faulty != good && random.once_in(2) {
            let (plates, _) = plain::listing(&words);
            lines.iter_mut().for_each(|line| line.show(&plates));
        }
        let mut prices = area_prices(&good, &listing, 100);
        if random.once_in(4) {
            prices.items[0] = (prices.items[0] + random.between(0, 30)).min(9_999);
        }
        if random.once_in(8) {
            prices.residuals.push(0);
        }
        let mut text = job_text(&words);
        text.extend(lines.iter().flat_map(CountLine::text));
        let list = price_words(&prices);
        let priced = random.once_in(2);
        if priced {
            text.extend(price_text_on(faulty.sizes.len(), &prices));
        }
        let answer = saw_answer(&mut lent, &words, &lines, priced.then_some(&list[..]));
        let number = answer.as_ref().err().map_or(0, |refused| refused.number);
        *met.entry(number).or_insert(0) += 1;
        let expected = answer.unwrap_or_else(|refused| refusal(refused.number, refused.place));
        assert_text(&saw_text(&text), &expected);
    }
    // Every number that such texts can be answered with is met often; 0 stands for success.
    for number in [0, 3, 4, 8, 9, 10, 11, 12, 13, 14, 19, 20] {
        let times = met.get(&number).copied().unwrap_or(0);
        assert!(times >= 20, "{number} is met {times} times: {met:?}");
    }
}

/// The answer that the calls give to the numbers of a fold text.
fn fold_answer(lent: &mut Lent, words: &[u16], lines: &[[u16; 9]]) -> Vec<u8> {
    match lent.fold(words, lines) {
        Ok(_) => plan_text_of(words, &lent.counts),
        Err(refused) if refused.number >= 15 => {
            let before = u32::from(words[2] + words[3]) + 1;
            refusal(refused.number, refused.place + before)
        }
        Err(refused) => refusal(refused.number, refused.place),
    }
}

#[test]
fn fold_texts_and_calls() {
    let mut random = Random::new(62);
    let mut lent = Lent::new();
    for _ in 0..8_000 {
        let (good, faulty) = random_faulty_job(&mut random);
        let words = words_of(&faulty);
        let mut lines = check::lines(&good, &random_set(&mut random, &good));
        while random.once_in(2) && !lines.is_empty() {
            let index = random.below(lines.len());
            match random.below(6) {
                0 => drop(lines.remove(index)),
                1 => lines[index][5] = random.between(1, words[3]),
                2 => lines[index][random.pick(&[6, 7])] = random.between(0, 9),
                3 => lines[index][8] ^= 1,
                4 => lines[index][1] = random.between(0, words[2] - 1),
                _ => lines[index][random.pick(&[0, 2, 3, 4])] = random.between(1, 3),
            }
        }
        let mut text = job_text(&words);
        text.extend(layout_text(&lines));
        let expected = fold_answer(&mut lent, &words, &lines);
        assert_text(&fold_text(&text), &expected);
    }
}
