//! Price lists: by area, and random ones that are as high as the rules let them be.

use super::random::Random;
use reference::{Job, Listing, Plate, Prices, Size};

/// The words of a price list: D, the item prices, the residual prices.
pub fn words_of(prices: &Prices) -> Vec<u16> {
    let mut words = vec![prices.denominator];
    words.extend(&prices.items);
    words.extend(&prices.residuals);
    words
}

/// Each price is the area's share, in units of 1/D, of the cost of the size that gives most area for
/// its cost, rounded down; sides are taken with the blade. D is lower than asked for where a price
/// would be above its limit.
pub fn area_prices(job: &Job, listing: &Listing, denominator: u16) -> Prices {
    let area = |width: u16, height: u16| {
        let [width, height] = [width, height].map(|side| u64::from(side + job.blade));
        width * height
    };
    let of_size = |size: &Size| area(size.width, size.height);
    let mut best = job.sizes[0];
    for size in &job.sizes {
        if of_size(size) * u64::from(best.cost) > of_size(&best) * u64::from(size.cost) {
            best = *size;
        }
    }
    let largest = job.sizes.iter().map(of_size).max().unwrap();
    let [board, cost] = [of_size(&best), u64::from(best.cost)];
    let denominator = u64::from(denominator).min(9_999 * board / (cost * largest));
    let price = |width: u16, height: u16| (area(width, height) * denominator * cost / board) as u16;
    let of_plate = |plate: &Plate| price(plate.width, plate.height);
    Prices {
        denominator: denominator as u16,
        items: (job.items.iter())
            .map(|item| price(item.width, item.height))
            .collect(),
        residuals: listing.residuals().iter().map(of_plate).collect(),
    }
}

/// Random item prices; each residual, and D over the sizes' costs, at the least that its cuts allow.
/// None if a price would leave its limits.
pub fn least_prices(random: &mut Random, job: &Job, listing: &Listing) -> Option<Prices> {
    let highest = random.pick(&[1, 3, 10, 100]);
    let items: Vec<u16> = (job.items.iter())
        .map(|_| random.between(0, highest))
        .collect();
    let mut least = vec![0u32; listing.plates.len()];
    let mut by_area: Vec<usize> = (0..listing.plates.len()).collect();
    by_area.sort_by_key(|&number| {
        let plate = listing.plates[number];
        u32::from(plate.width) * u32::from(plate.height)
    });
    // What a cut leaves is smaller than the plate cut, so it has its price already.
    for number in by_area {
        let cost = |index: usize| {
            let cut = listing.cuts[index];
            let kept = cut.top.iter().chain(&cut.right);
            let residuals: u32 = kept.map(|&residual| least[usize::from(residual)]).sum();
            residuals + u32::from(items[usize::from(cut.position.item) - 1])
        };
        let highest = listing.cuts_on(number as u16).map(cost).max();
        least[number] = highest.unwrap_or(0);
    }
    let (boards, residuals) = least.split_at(job.sizes.len());
    let denominators =
        (job.sizes.iter().zip(boards)).map(|(size, &least)| least.div_ceil(u32::from(size.cost)));
    let denominator = denominators.max().unwrap();
    let within =
        residuals.iter().all(|&price| price <= 9_999) && (1..=9_999).contains(&denominator);
    within.then(|| Prices {
        denominator: denominator as u16,
        items,
        residuals: residuals.iter().map(|&price| price as u16).collect(),
    })
}

/// Changes one price a little.
pub fn disturb(random: &mut Random, prices: &mut Prices) {
    let many = prices.items.len() + prices.residuals.len();
    let index = random.below(many);
    let price = match index.checked_sub(prices.items.len()) {
        Some(residual) => &mut prices.residuals[residual],
        None => &mut prices.items[index],
    };
    *price = match random.once_in(2) {
        true => (*price + 1).min(9_999),
        false => price.saturating_sub(1),
    };
}
