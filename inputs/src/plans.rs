//! Plans from random cutting.

use crate::missing::Missing;
use crate::model::Model;
use crate::random::Random;
use reference::Listing;

/// The counts of boards of all sizes and residuals that are cut at random, in any order, until the demands are
/// met: an accepted plan.
pub fn random_plan(random: &mut Random, model: &Model) -> Vec<u16> {
    let listing = &model.listing;
    let mut counts = vec![0; listing.cuts.len()];
    let mut waiting = Vec::new();
    let mut missing = Missing::of(&model.job);
    while !missing.is_none() || random.once_in(4) {
        let plate = random_plate(random, listing, &mut waiting);
        let on: Vec<usize> = listing.cuts_on(plate).collect();
        let lacked = |index: &usize| missing.lacks(listing.cuts[*index].position.item);
        let wanted: Vec<usize> = on.iter().copied().filter(lacked).collect();
        let index = match wanted.is_empty() || random.once_in(4) {
            true => random.pick(&on),
            false => random.pick(&wanted),
        };
        counts[index] += 1;
        let cut = listing.cuts[index];
        waiting.extend(cut.top.iter().chain(&cut.right));
        missing.take(cut.position.item);
    }
    counts
}

/// A board of a size that has a cut, any residual that waits, or one of the highest stage.
fn random_plate(random: &mut Random, listing: &Listing, waiting: &mut Vec<u16>) -> u16 {
    if waiting.is_empty() || random.once_in(5) {
        let sizes = 0..listing.sizes as u16;
        let cut = sizes.filter(|&size| !listing.cuts_on(size).is_empty());
        return random.pick(&cut.collect::<Vec<u16>>());
    }
    waiting.sort_by_key(|&plate| listing.plates[usize::from(plate)].stage);
    let last = waiting.len() - 1;
    let at = match random.once_in(3) {
        true => random.below(last + 1),
        false => last,
    };
    waiting.remove(at)
}
