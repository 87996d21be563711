//! The two texts of a job and its inputs, for a job whose listing is not refused.

use super::inputs::Inputs;
use crate::columns::write_line;
use crate::job::{items_at, Job, HEAD_NUMBERS, ITEM_NUMBERS};
use crate::layout::PLACEMENT_NUMBERS;
use crate::listing::{Listing, FULL};
use crate::plan_lines;
use crate::refusal::Refusal;
use crate::size::SIZE_NUMBERS;

/// The saw text: the job, the plan and the prices.
pub fn saw_text(job: &[u16], inputs: &Inputs) -> Result<Vec<u8>, Refusal> {
    let mut text = job_lines(job);
    text.extend(plan_lines(job, &inputs.counts)?);
    let [sizes, types] = [job[2], job[3]];
    let (items, residuals) = inputs.prices[1..].split_at(usize::from(types));
    let head = [inputs.prices[0], types, residuals.len() as u16];
    write_words(&mut text, 4, &head);
    for (kind, first, prices) in [(5, 1, items), (6, sizes, residuals)] {
        for (number, &price) in (first..).zip(prices) {
            write_words(&mut text, kind, &[number, price]);
        }
    }
    Ok(text)
}

/// The fold text: the job and the layouts.
pub fn fold_text(job: &[u16], inputs: &Inputs) -> Vec<u8> {
    let mut text = job_lines(job);
    text.extend(layout_lines(&inputs.layouts));
    text
}

/// Lines of kinds 1, 10 and 2.
pub fn job_lines(job: &[u16]) -> Vec<u8> {
    let (board, items) = job.split_at(items_at(usize::from(job[2])));
    let (head, sizes) = board.split_at(HEAD_NUMBERS);
    let mut text = Vec::new();
    write_words(&mut text, 1, head);
    for (number, size) in (0..).zip(sizes.chunks(SIZE_NUMBERS)) {
        write_words(&mut text, 10, &[&[number], size].concat());
    }
    for (number, item) in (1..).zip(items.chunks(ITEM_NUMBERS)) {
        write_words(&mut text, 2, &[&[number], item].concat());
    }
    text
}

/// Lines of kind 3 for the cuts that are counted.
pub fn plan_lines(job: &[u16], counts: &[u16]) -> Result<Vec<u8>, Refusal> {
    let listing = Listing::walk(&Job::from_words(job)?, FULL)?;
    Ok(plan_lines::written(&listing, counts))
}

/// Lines of kind 7.
pub fn layout_lines(layouts: &[u16]) -> Vec<u8> {
    let mut text = Vec::new();
    for line in layouts.chunks(PLACEMENT_NUMBERS) {
        write_words(&mut text, 7, line);
    }
    text
}

/// A line of this kind.
fn write_words(text: &mut Vec<u8>, kind: u32, words: &[u16]) {
    let mut numbers = vec![kind];
    numbers.extend(words.iter().map(|&word| u32::from(word)));
    write_line(text, &numbers);
}
