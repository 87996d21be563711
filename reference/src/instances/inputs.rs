//! Inputs of the five calls for a job whose listing is not refused: a plan, a price list and
//! layouts.

use crate::buffers::COUNTS;
use crate::folding;
use crate::greedy;
use crate::job::Job;
use crate::layout::{placements, Board, Placement};
use crate::limits::{DENOMINATOR, PRICE};
use crate::listing::{Listing, FULL};
use crate::prices::Prices;
use crate::refusal::Refusal;
use crate::size::Size;

/// Words that the calls take beside the job.
#[derive(Debug, Clone, PartialEq, Eq)]
pub struct Inputs {
    /// The plan of the layouts, at full size.
    pub counts: Vec<u16>,
    /// Prices by area.
    pub prices: Vec<u16>,
    /// A set of layouts that meets each demand exactly.
    pub layouts: Vec<u16>,
}

impl Inputs {
    /// The inputs for a job, unless the job or its listing is refused; boards are filled.
    pub fn of(words: &[u16]) -> Result<Inputs, Refusal> {
        Inputs::with(words, greedy::set)
    }

    /// The same with each item on a board of its own, which leaves over as much as can be.
    pub fn of_singles(words: &[u16]) -> Result<Inputs, Refusal> {
        Inputs::with(words, greedy::singles)
    }

    fn with(words: &[u16], set: fn(&Job) -> Vec<Board>) -> Result<Inputs, Refusal> {
        let job = Job::from_words(words)?;
        job.admit()?;
        let listing = Listing::walk(&job, FULL)?;
        let set = set(&job);
        let mut counts = folding::fold(&job, &listing, &set);
        counts.resize(COUNTS.full_size, 0);
        let lines = placements(&job, &set);
        Ok(Inputs {
            counts,
            prices: area_prices(&job, &listing).words(),
            layouts: lines.iter().flat_map(Placement::words).collect(),
        })
    }
}

/// Prices by area, each side taken with the blade: of the sizes that are cut the one that gives most
/// area for its cost has D times its cost as its price, and each other area has its share of that,
/// rounded down. Sides with the blade cut from a side with the blade add up to at most that, so areas
/// cut from a plate to at most the plate's, and rounded-down parts to at most the rounded-down whole;
/// no size gives more area for its cost. So the list is accepted. D is the area of that size, or
/// less, so that neither it nor a price is above its limit.
pub fn area_prices(job: &Job, listing: &Listing) -> Prices {
    let area = |width: u16, height: u16| {
        let [width, height] = [width, height].map(|side| u64::from(side + job.blade));
        width * height
    };
    let of_size = |size: &Size| area(size.width, size.height);
    let cut = (0..).zip(&job.sizes);
    let cut = cut.filter(|&(number, _)| !listing.cuts_on(number).is_empty());
    let sizes: Vec<&Size> = cut.map(|(_, size)| size).collect();
    let mut best = sizes[0];
    for size in &sizes {
        if of_size(size) * u64::from(best.cost) > of_size(best) * u64::from(size.cost) {
            best = size;
        }
    }
    let largest = sizes.iter().map(|size| of_size(size)).max().unwrap_or(1);
    let [whole, cost] = [of_size(best), u64::from(best.cost)];
    let within_price = u64::from(*PRICE.end()) * whole / (cost * largest);
    let denominator = whole.min(u64::from(*DENOMINATOR.end())).min(within_price);
    let price = |width: u16, height: u16| (area(width, height) * denominator * cost / whole) as u16;
    Prices {
        denominator: denominator as u16,
        items: (job.items.iter())
            .map(|item| price(item.width, item.height))
            .collect(),
        residuals: (listing.residuals().iter())
            .map(|plate| price(plate.width, plate.height))
            .collect(),
    }
}
