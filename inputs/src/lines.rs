//! Lines: those of a small job with a plan and prices, or with layouts, and the text that damage makes of them.

use crate::damage::{
    damage_blade, damage_bytes, damage_line, damage_order, damage_shown, damage_size_lines,
    move_number,
};
use crate::layouts::random_layouts;
use crate::model::Model;
use crate::plans::random_plan;
use crate::prices::random_prices;
use crate::random::Random;
use reference::columns::write_line;
use reference::job::{items_at, HEAD_NUMBERS, ITEM_NUMBERS};
use reference::layout::PLACEMENT_NUMBERS;
use reference::plan_lines;
use reference::size::SIZE_NUMBERS;

/// The numbers of a line, its kind first.
pub type Line = Vec<u32>;

/// The lines as bytes, damaged so many times: in numbers, in the blade, in the sizes, in the plates
/// that lines of kind 3 show, if there are any, in the order of all lines or of those after the job's,
/// of which there are so many, or in bytes.
pub fn text_of(
    random: &mut Random,
    mut lines: Vec<Line>,
    job_lines: usize,
    damages: usize,
) -> Vec<u8> {
    let mut in_bytes = 0;
    let shows_plates = lines.iter().any(|line| line[0] == 3);
    let ways = if shows_plates { 16 } else { 13 };
    for _ in 0..damages {
        match random.below(ways) {
            10 => damage_blade(random, &mut lines),
            11 | 12 => damage_size_lines(random, &mut lines),
            13.. => damage_shown(random, &mut lines),
            0..=3 => move_number(random, &mut lines),
            4 => damage_line(random, &mut lines),
            5 => damage_order(random, &mut lines),
            6 => {
                let mut body = lines.split_off(lines.len().min(job_lines));
                damage_order(random, &mut body);
                lines.append(&mut body);
            }
            _ => in_bytes += 1,
        }
    }
    let mut text = Vec::new();
    for line in lines {
        write_line(&mut text, &line);
    }
    for _ in 0..in_bytes {
        damage_bytes(random, &mut text);
    }
    text
}

/// Kinds 1, 10 and 2.
pub fn job_lines(words: &[u16]) -> Vec<Line> {
    let line = |head: &[u32], words: &[u16]| {
        let numbers = words.iter().map(|&word| u32::from(word));
        head.iter().copied().chain(numbers).collect()
    };
    let (board, items) = words.split_at(items_at(usize::from(words[2])));
    let (head, sizes) = board.split_at(HEAD_NUMBERS);
    let mut lines = vec![line(&[1], head)];
    for (number, size) in (0..).zip(sizes.chunks(SIZE_NUMBERS)) {
        lines.push(line(&[10, number], size));
    }
    for (number, item) in (1..).zip(items.chunks(ITEM_NUMBERS)) {
        lines.push(line(&[2, number], item));
    }
    lines
}

/// The lines of a saw text whose plan is accepted; its prices, if it has any, may be one too few
/// or too many, or one of them too high.
pub fn saw_lines(random: &mut Random, model: &Model) -> Vec<Line> {
    let mut lines = job_lines(&model.words);
    let plan = random_plan(random, model);
    for (cut, &count) in model.listing.cuts.iter().zip(&plan) {
        if count > 0 {
            lines.push(plan_lines::line(&model.listing, cut, count).to_vec());
        }
    }
    if random.once_in(2) {
        return lines;
    }
    let words = random_prices(random, model);
    let (items, residuals) = words[1..].split_at(model.job.items.len());
    let mut prices = [items.to_vec(), residuals.to_vec()];
    let changed = &mut prices[random.below(2)];
    match random.below(10) {
        0 => changed.push(0),
        1 => drop(changed.pop()),
        2 | 3 if !changed.is_empty() => changed[0] += 1,
        _ => {}
    }
    let [types, plates] = [0, 1].map(|which: usize| prices[which].len() as u32);
    lines.push(vec![4, u32::from(words[0]), types, plates]);
    let sizes = model.job.sizes.len() as u32;
    for (kind, first, list) in [(5, 1, &prices[0]), (6, sizes, &prices[1])] {
        let line = |(number, &price)| vec![kind, number, u32::from(price)];
        lines.extend((first..).zip(list).map(line));
    }
    lines
}

/// The lines of a fold text whose layouts meet the demands and, but for some, keep the rules.
pub fn fold_lines(random: &mut Random, model: &Model) -> Vec<Line> {
    let mut lines = job_lines(&model.words);
    let broken = random.once_in(8);
    for words in random_layouts(random, &model.job, broken).chunks(PLACEMENT_NUMBERS) {
        let numbers = words.iter().map(|&word| u32::from(word));
        lines.push(std::iter::once(7).chain(numbers).collect());
    }
    lines
}
