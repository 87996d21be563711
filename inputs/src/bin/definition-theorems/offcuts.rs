//! Theorems over offcuts and areas, of any counts: those of a plan, or changed ones, which need not
//! all be spent.

use crate::antt::{numbers, words, Equation};
use crate::Theorem;
use inputs::lengths::any_lengths;
use inputs::plans::random_plan;
use inputs::{Model, Random};
use reference::balance::of_boards;
use reference::unfolding::unfold;
use reference::Offcut;

/// A theorem over the offcuts that counts leave, marked by two lengths, which may be any.
pub fn offcuts_theorem(random: &mut Random) -> Theorem {
    let model = Model::random(random);
    let counts = random_counts(random, &model);
    let lengths = any_lengths(random, model.first_sides());
    let offcuts = unfold(&model.job, &model.listing, &counts).offcuts;
    let left_over: Vec<u16> = offcuts
        .iter()
        .flat_map(|offcut| words_of(offcut, lengths))
        .collect();
    let [first, second] = lengths.map(|length| length.to_string());
    Theorem {
        equation: Equation {
            definition: "left_over",
            arguments: vec![words(&model.words), first, second, words(&counts)],
            answer: vec![words(&left_over)],
        },
        refusal: None,
    }
}

/// A theorem over the areas of items, offcuts, waste and swath on a board, and of the board's own size;
/// or on one past the last, where there is nothing and size 0 is named.
pub fn areas_theorem(random: &mut Random) -> Theorem {
    let model = Model::random(random);
    let counts = random_counts(random, &model);
    let unfolding = unfold(&model.job, &model.listing, &counts);
    let boards = of_boards(&model.job, &model.listing, &unfolding);
    let board = random.below(boards.len() + 1);
    let areas = boards.get(board).copied().unwrap_or_default();
    let size = unfolding.sizes.get(board).copied().unwrap_or(0);
    Theorem {
        equation: Equation {
            definition: "areas_on",
            arguments: vec![words(&model.words), words(&counts), (board + 1).to_string()],
            answer: vec![numbers([
                areas.items,
                areas.offcuts,
                areas.waste,
                areas.swath,
                model.job.size(size).area(),
            ])],
        },
        refusal: None,
    }
}

/// The counts of a plan; in one of three cases a few of them are changed.
pub fn random_counts(random: &mut Random, model: &Model) -> Vec<u16> {
    let mut counts = random_plan(random, model);
    if random.once_in(3) {
        for _ in 0..=random.below(3) {
            let at = random.below(counts.len());
            counts[at] = random.between(0, 2);
        }
    }
    counts
}

/// The six words of an offcut, with any two lengths.
pub fn words_of(offcut: &Offcut, [first, second]: [u16; 2]) -> [u16; 6] {
    let Offcut {
        board,
        x,
        y,
        width,
        height,
        ..
    } = *offcut;
    let usable = u16::from(width >= first && height >= second);
    [board, x, y, width, height, usable]
}
