//! Theorems over a plate type's own cuts (document 02, Seven), on jobs of which most have a size that no
//! item fits: the parts of any counts, and the unfolding found in them.

use crate::antt::{list, numbers, words, Equation};
use crate::offcuts::{random_counts, words_of};
use crate::Theorem;
use inputs::layouts::words_of_lines;
use inputs::{Model, Random};
use reference::unfolding::unfold;
use reference::Listing;
use std::ops::Range;

/// The two lengths by which offcuts are marked, of which each is usable.
const ANY: [u16; 2] = [1, 1];

/// A theorem over all plate types, and two past the last: where the cuts of each begin, its part of the
/// counts, and the cut that is found there.
pub fn parts_theorem(random: &mut Random) -> Theorem {
    let model = random_model(random);
    let counts = random_counts(random, &model);
    let plates = 0..model.listing.plates.len() + 2;
    let parts: Vec<_> = (plates.clone().map(|plate| cuts_on(&model.listing, plate))).collect();
    let begin = |part: &Range<usize>| part.start;
    let own = |part: &Range<usize>| words(&counts[part.clone()]);
    let found = |part: &Range<usize>| match part.clone().find(|&cut| counts[cut] > 0) {
        Some(cut) => format!("some {}", cut + 1),
        None => String::from("none"),
    };
    Theorem {
        equation: Equation {
            definition: "parts_of",
            arguments: vec![words(&model.words), numbers(plates), words(&counts)],
            answer: vec![
                format!("parts {}", numbers(parts.iter().map(begin))),
                list(parts.iter().map(own)),
                list(parts.iter().map(found)),
            ],
        },
        refusal: None,
    }
}

/// A theorem over the unfolding found in the parts: its placements, the counts that it leaves, its cuts in
/// their order, and its offcuts.
pub fn run_theorem(random: &mut Random) -> Theorem {
    let model = random_model(random);
    let counts = random_counts(random, &model);
    let unfolding = unfold(&model.job, &model.listing, &counts);
    let offcuts = unfolding.offcuts.iter();
    let offcuts: Vec<u16> = offcuts.flat_map(|offcut| words_of(offcut, ANY)).collect();
    Theorem {
        equation: Equation {
            definition: "unfolded_by_parts",
            arguments: vec![words(&model.words), words(&counts)],
            answer: vec![
                format!("by_parts {}", words(&words_of_lines(&unfolding.placements))),
                words(&unfolding.left),
                numbers(unfolding.cuts.iter().map(|cut| cut + 1)),
                words(&offcuts),
            ],
        },
        refusal: None,
    }
}

/// A model; most have a size without a cut.
fn random_model(random: &mut Random) -> Model {
    loop {
        let model = Model::random(random);
        let sizes = 0..model.listing.sizes as u16;
        let is_empty = |size: u16| model.listing.cuts_on(size).is_empty();
        if sizes.into_iter().any(is_empty) || random.once_in(12) {
            return model;
        }
    }
}

/// The indices of the cuts on a plate type; past the last type none, behind all cuts.
fn cuts_on(listing: &Listing, plate: usize) -> Range<usize> {
    match plate < listing.plates.len() {
        true => listing.cuts_on(plate as u16),
        false => listing.cuts.len()..listing.cuts.len(),
    }
}
