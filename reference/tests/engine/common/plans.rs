//! Random accepted plans: boards of all sizes and residuals cut at random, in any order, until the demands
//! are met.

use super::random::Random;
use reference::{Job, Listing};

/// A plan of cuts that were possible when they were done.
pub fn random_plan(random: &mut Random, job: &Job, listing: &Listing) -> Vec<u16> {
    let mut counts = vec![0; listing.cuts.len()];
    let mut waiting: Vec<u16> = Vec::new();
    let mut missing: Vec<u16> = job.items.iter().map(|item| item.demand).collect();
    let mut surplus = random.below(6);
    for step in 0.. {
        let open = missing.iter().any(|&count| count > 0);
        if !open && surplus == 0 {
            break;
        }
        surplus -= usize::from(!open);
        let index = if step < 60 {
            let plate = random_plate(random, listing, &mut waiting);
            let on = listing.cuts_on(plate);
            on.start + random.below(on.len())
        } else {
            let short = missing.iter().position(|&count| count > 0).unwrap_or(0) as u16 + 1;
            let of_type = |&index: &usize| listing.cuts[index].position.item == short;
            let sizes = 0..listing.sizes as u16;
            let mut on_sizes = sizes.flat_map(|size| listing.cuts_on(size));
            on_sizes.find(of_type).unwrap()
        };
        counts[index] += 1;
        let cut = listing.cuts[index];
        waiting.extend(cut.top.iter().chain(&cut.right));
        let item = &mut missing[usize::from(cut.position.item) - 1];
        *item = item.saturating_sub(1);
    }
    counts
}

/// A waiting residual, taken away, or a fresh board of a size that has a cut.
fn random_plate(random: &mut Random, listing: &Listing, waiting: &mut Vec<u16>) -> u16 {
    if waiting.is_empty() || random.once_in(4) {
        let sizes = 0..listing.sizes as u16;
        let cut: Vec<u16> = sizes
            .filter(|&size| !listing.cuts_on(size).is_empty())
            .collect();
        return random.pick(&cut);
    }
    let index = random.below(waiting.len());
    waiting.swap_remove(index)
}
