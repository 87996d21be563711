//! Texts, written by the column rules without the library.

use super::check::Line;
use super::jobs::job_a;
use super::plain;
use reference::Prices;

/// One line of numbers.
pub fn line(numbers: &[u32]) -> Vec<u8> {
    let groups = numbers.iter().map(|number| format!("{number:>9}"));
    let mut bytes = groups.collect::<String>().into_bytes();
    bytes.push(b'\n');
    bytes
}

/// Lines of numbers.
pub fn lines(all: &[&[u32]]) -> Vec<u8> {
    all.iter().flat_map(|numbers| line(numbers)).collect()
}

/// The lines of kinds 1, 10 and 2 of job words.
pub fn job_text(job: &[u16]) -> Vec<u8> {
    let numbers = |first: &[u32], words: &[u16]| -> Vec<u32> {
        let words = words.iter().map(|&word| u32::from(word));
        first.iter().copied().chain(words).collect()
    };
    let mut text = line(&numbers(&[1], &job[..5]));
    for (number, size) in (0..).zip(plain::sizes(job)) {
        text.extend(line(&numbers(&[10, number], &size)));
    }
    for (item_type, item) in (1..).zip(plain::items(job).chunks(4)) {
        text.extend(line(&numbers(&[2, item_type], item)));
    }
    text
}

/// The lines of kind 3 of counts, by plate and item word of each cut, with the plate's record.
pub fn plan_text(plates: &[[u16; 3]], cuts: &[[u16; 4]], counts: &[u16]) -> Vec<u8> {
    let counted = cuts.iter().zip(counts).filter(|(_, &count)| count > 0);
    let written = counted.flat_map(|(cut, &count)| {
        let [w, h, stage] = plates[usize::from(cut[0])];
        let numbers = [3, cut[0], cut[1] / 2, count, w, h, stage, cut[1] % 2];
        line(&numbers.map(u32::from))
    });
    written.collect()
}

/// The lines of kind 3 of counts of a job's cuts.
pub fn plan_text_of(job: &[u16], counts: &[u16]) -> Vec<u8> {
    let (plates, cuts) = plain::listing(job);
    plan_text(&plates, &cuts, counts)
}

/// The lines of kinds 4, 5 and 6 of a price list for a job of so many sizes, after which plate numbers
/// of residual types begin.
pub fn price_text_on(sizes: usize, prices: &Prices) -> Vec<u8> {
    let mut text = line(&[
        4,
        u32::from(prices.denominator),
        prices.items.len() as u32,
        prices.residuals.len() as u32,
    ]);
    let lists = [(5, 1, &prices.items), (6, sizes as u32, &prices.residuals)];
    for (kind, first, list) in lists {
        for (number, &price) in (first..).zip(list) {
            text.extend(line(&[kind, number, u32::from(price)]));
        }
    }
    text
}

/// The lines of kind 7 of layout lines.
pub fn layout_text(layouts: &[Line]) -> Vec<u8> {
    let written = layouts.iter().flat_map(|numbers| {
        let mut all = vec![7];
        all.extend(numbers.map(u32::from));
        line(&all)
    });
    written.collect()
}

/// Job A's lines of kinds 1, 10 and 2, followed by these lines.
pub fn after_job_a(all: &[&[u32]]) -> Vec<u8> {
    let mut text = job_text(&job_a());
    text.extend(lines(all));
    text
}

/// The output of a refusal.
pub fn refusal(number: u32, place: u32) -> Vec<u8> {
    line(&[9, number, place])
}

/// Asserts that two texts are equal, and prints them as text where they are not.
#[track_caller]
pub fn assert_text(found: &[u8], expected: &[u8]) {
    if found != expected {
        let [found, expected] = [found, expected].map(String::from_utf8_lossy);
        panic!("found:\n{found}\nexpected:\n{expected}");
    }
}
