//! Prices: the test of a price list and the bound that it gives (document 01, "Prices";
//! document 02, Six).

use crate::job::Job;
use crate::limits::{DENOMINATOR, PRICE};
use crate::listing::Listing;
use crate::refusal::{ensure, Refusal, CUT_OVER_LIMIT, OUTSIDE_LIMITS, PRICES_NOT_THE_MODELS};

/// A denominator, a price for each item type and one for each residual type.
#[derive(Debug, Clone, PartialEq, Eq)]
pub struct Prices {
    pub denominator: u16,
    pub items: Vec<u16>,
    pub residuals: Vec<u16>,
}

/// The bound on the cost of boards: a sum over a denominator, not reduced and not rounded.
#[derive(Debug, Clone, Copy, PartialEq, Eq)]
pub struct Bound {
    pub sum: u32,
    pub d: u32,
}

impl Bound {
    /// The bound that stands for no prices: sum 0, D 1 ("Texts"). It makes no plan the cheapest.
    pub const NONE: Bound = Bound { sum: 0, d: 1 };

    /// Whether no plan costs less: (cost - 1) times D is below the sum. The product passes 32 bits.
    pub fn is_cheapest(&self, cost: u32) -> bool {
        let one_less = u64::from(cost.saturating_sub(1));
        one_less * u64::from(self.d) < u64::from(self.sum)
    }
}

/// Tests price words one by one: a D or a price outside its limits is 2, naming the word from 1.
pub fn test_words(words: &[u16]) -> Result<(), Refusal> {
    for (index, &word) in words.iter().enumerate() {
        let limits = if index == 0 { DENOMINATOR } else { PRICE };
        let within = limits.contains(&u32::from(word));
        ensure(within, OUTSIDE_LIMITS, index + 1)?;
    }
    Ok(())
}

impl Prices {
    /// The price list of D, the n item prices and the m residual prices of a model; another
    /// length is 13.
    pub fn from_words(words: &[u16], job: &Job, listing: &Listing) -> Result<Prices, Refusal> {
        let types = job.items.len();
        let length = 1 + types + listing.residual_types();
        ensure(words.len() == length, PRICES_NOT_THE_MODELS, 0)?;
        Ok(Prices {
            denominator: words[0],
            items: words[1..=types].to_vec(),
            residuals: words[types + 1..].to_vec(),
        })
    }

    /// The price words: D, the n item prices, the m residual prices.
    pub fn words(&self) -> Vec<u16> {
        let denominator = [self.denominator];
        [&denominator[..], &self.items, &self.residuals].concat()
    }

    /// Tests the prices and gives their bound. An n or m that is not the model's is 13; a cut
    /// whose item and kept residuals are priced above D times the cost of a size, or above the plate
    /// cut on a residual type, is 14.
    pub fn test(&self, job: &Job, listing: &Listing) -> Result<Bound, Refusal> {
        let matching =
            self.items.len() == job.items.len() && self.residuals.len() == listing.residual_types();
        ensure(matching, PRICES_NOT_THE_MODELS, 0)?;
        for (number, cut) in (1..).zip(&listing.cuts) {
            let item = self.item(cut.position.item);
            let kept: u32 = (cut.top.iter().chain(&cut.right))
                .map(|&residual| self.limit(job, residual))
                .sum();
            let limit = self.limit(job, cut.plate);
            ensure(item + kept <= limit, CUT_OVER_LIMIT, number)?;
        }
        let priced = (1..).zip(&job.items);
        let sum = priced.map(|(number, item)| self.item(number) * u32::from(item.demand));
        Ok(Bound {
            sum: sum.sum(),
            d: u32::from(self.denominator),
        })
    }

    /// The price of an item type, turned or not.
    fn item(&self, number: u16) -> u32 {
        u32::from(self.items[usize::from(number) - 1])
    }

    /// What may be spent on a plate type: D times its cost on a size, the type's own price on a
    /// residual type.
    fn limit(&self, job: &Job, plate: u16) -> u32 {
        let plate = usize::from(plate);
        match job.sizes.get(plate) {
            Some(size) => u32::from(self.denominator) * u32::from(size.cost),
            None => u32::from(self.residuals[plate - job.sizes.len()]),
        }
    }
}
