//! Price lists that are accepted.

use crate::model::Model;
use crate::random::Random;

/// The words of an accepted price list: each residual, and D over the sizes' costs, at the least that
/// its cuts allow, then all of them as many times as much.
pub fn random_prices(random: &mut Random, model: &Model) -> Vec<u16> {
    let items: Vec<u16> = (model.job.items.iter())
        .map(|_| random.between(0, 9))
        .collect();
    let mut least = vec![0; model.listing.plates.len()];
    let mut settled = false;
    while !settled {
        settled = true;
        for cut in &model.listing.cuts {
            let kept = cut.top.iter().chain(&cut.right);
            let residuals: u16 = kept.map(|&plate| least[usize::from(plate)]).sum();
            let cost = residuals + items[usize::from(cut.position.item) - 1];
            let plate = &mut least[usize::from(cut.plate)];
            settled &= cost <= *plate;
            *plate = cost.max(*plate);
        }
    }
    let (boards, residuals) = least.split_at(model.job.sizes.len());
    let sizes = model.job.sizes.iter().zip(boards);
    let lowest = sizes.map(|(size, &least)| least.div_ceil(size.cost));
    let lowest = lowest.max().expect("a job has a size");
    let highest = items.iter().chain(residuals).chain([&lowest]).max();
    let most = 9_999 / highest.expect("a job has an item").max(&1);
    let times = random.pick(&[1, 1, 2, most]).min(most);
    let denominator = lowest * times + random.pick(&[0, 0, 1, 5]);
    let mut words = vec![denominator.clamp(1, 9_999)];
    words.extend(items.iter().chain(residuals).map(|price| price * times));
    words
}
