//! The words that a call takes besides the job's: counts, prices or layouts, valid, at a limit, or damaged.

use inputs::damage::{damage_order, damage_words, Words};
use inputs::subjects::Subject;
use inputs::Random;
use reference::buffers::COUNTS;
use reference::layout::PLACEMENT_NUMBERS;

#[derive(Clone, Copy)]
pub enum Own {
    Nothing,
    Counts,
    Prices,
    Layouts,
}

impl Own {
    /// Words that are accepted, where the job is.
    pub fn valid(self, random: &mut Random, subject: &Subject) -> Vec<u16> {
        match self {
            Own::Nothing => Vec::new(),
            Own::Counts => {
                let mut counts = subject.counts(random);
                counts.resize(COUNTS.full_size, 0);
                counts
            }
            Own::Prices => subject.prices(random),
            Own::Layouts => subject.layouts(random, false),
        }
    }

    /// Words of which a good third is damaged.
    pub fn any(self, random: &mut Random, subject: &Subject) -> Vec<u16> {
        match self {
            Own::Nothing => Vec::new(),
            Own::Counts => {
                let counts = subject.counts(random);
                count_words(random, counts)
            }
            Own::Prices => {
                let mut prices = subject.prices(random);
                if random.once_in(3) {
                    damage_words(random, &mut prices, Words::Prices);
                }
                prices
            }
            Own::Layouts => layout_words(random, subject),
        }
    }
}

/// The words of a plan, damaged or not: of full size, longer, or, now and then, shorter.
fn count_words(random: &mut Random, mut counts: Vec<u16>) -> Vec<u16> {
    match random.below(9) {
        0 => damage_words(random, &mut counts, Words::Counts),
        1 => {
            damage_words(random, &mut counts, Words::Counts);
            damage_words(random, &mut counts, Words::Counts);
        }
        2 => raise_total(random, &mut counts),
        _ => {}
    }
    counts.resize(COUNTS.full_size + random.pick(&[0, 0, 0, 1, 900]), 0);
    if random.once_in(24) {
        let past = random.pick(&[counts.len() - 1, COUNTS.full_size - 1, 40]);
        counts[past] = random.pick(&[1, 65_535]);
    }
    if random.once_in(24) {
        counts.truncate(random.pick(&[0, 3, COUNTS.full_size - 1]));
    }
    counts
}

/// Raises the first count, so that the total comes to 3,999, 4,000, 4,001 or far more.
fn raise_total(random: &mut Random, counts: &mut [u16]) {
    let total: u32 = counts.iter().map(|&count| u32::from(count)).sum();
    let wanted: u32 = random.pick(&[3_999, 4_000, 4_000, 4_001, 65_535]);
    if let Some(first) = counts.first_mut() {
        let raised = u32::from(*first) + wanted.saturating_sub(total);
        *first = raised.min(65_535) as u16;
    }
}

/// The words of layouts; damaged ones break the rules, the order of lines, or single words, or are
/// very many.
fn layout_words(random: &mut Random, subject: &Subject) -> Vec<u16> {
    let how = random.below(48);
    let mut layouts = subject.layouts(random, how < 6);
    match how {
        6 | 7 => {
            let mut lines: Vec<_> = layouts
                .chunks(PLACEMENT_NUMBERS)
                .map(<[u16]>::to_vec)
                .collect();
            damage_order(random, &mut lines);
            layouts = lines.concat();
        }
        8 => layouts = [1, 0, 1, 1, 1, 1, 0, 0, 0].repeat(random.pick(&[0, 4_000, 4_001])),
        9..=15 => damage_words(random, &mut layouts, Words::Layouts),
        _ => {}
    }
    layouts
}
