//! Prices: whole-number prices from a solver's dual prices, accepted by the saw whatever they are.
//!
//! The saw accepts prices exactly when, for each cut, the item's price plus the prices of its kept
//! residuals is at most the price of the plate cut, D times its cost taking the place of a size's
//! price. Given any item prices, the cuts force the rest: a plate's price must reach the dearest of its
//! cuts, and the greatest of these is all that it needs. Residuals have less area than their plate, so
//! going through the plate types by rising area finds each price after those it rests on, and what a
//! size needs over its cost, rounded up, is the least D for that size; the greatest of these is the
//! least D that the saw accepts.
//!
//! So for each scale from 1 to 9,999 the dual prices times the scale are rounded to whole numbers, once to
//! the nearest and once down, the rest is computed from them without rounding, and of all prices with
//! D and every one of them at most 9,999 those with the highest bound are taken, then those with the
//! lowest D. Rounding down never asks for more than the scale times the dual prices do; where a size is dear
//! D is low, and one price rounded up can raise it by a whole step.

use crate::columns::line;
use crate::job::{fits_size, Job, Size};
use crate::listing::Listing;
use crate::solution::Solution;

/// The greatest price, and the greatest D.
pub const MOST_PRICE: usize = 9_999;

/// What to say of prices of which no bound comes: the largest item is less than that part of a board.
pub const NOTHING_SHOWN: &str =
    "the prices show nothing of the cost: the items are too small beside the boards for whole prices up \
     to 9,999";

/// A denominator and a price for each item type and each residual type.
#[derive(Debug, Clone, PartialEq, Eq)]
pub struct Prices {
    pub denominator: usize,
    pub items: Vec<usize>,
    pub residuals: Vec<usize>,
}

/// The dual prices of the item types in a solution. A dual price of the limit of 4,000 cuts, at most
/// 0, is shared by all types, since every cut yields one item.
pub fn duals(job: &Job, solution: &Solution) -> Result<Vec<f64>, String> {
    let limit = solution.duals.get("pieces").copied().unwrap_or(0.0);
    let dual = |item_type| solution.duals.get(&format!("item_{item_type}"));
    let all: Option<Vec<f64>> = (1..=job.items.len())
        .map(|item_type| dual(item_type).copied())
        .collect();
    let all = all.unwrap_or_default();
    let prices: Vec<f64> = all.iter().map(|price| (price + limit).max(0.0)).collect();
    match prices.iter().any(|&price| price > 0.0) {
        true => Ok(prices),
        false => Err(
            "the solution has no dual prices of the item types. They come with the relaxation: \
                      glpsol --lp FILE --nomip -o SOLUTION, or \
                      cbc FILE initialSolve printingOptions all solution SOLUTION"
                .into(),
        ),
    }
}

/// The best prices by area, which serve where no solution is given: all sides taken with the blade, the
/// boards' too, at whose edges no blade is needed, or as they are. With one size the first bound is the
/// higher one; of several sizes the one with most area for its cost may be another with the blade.
pub fn by_area(job: &Job, listing: &Listing) -> Prices {
    let with_blade = scaled(job, listing, &areas(job, job.blade));
    if job.blade == 0 || job.sizes.len() == 1 {
        return with_blade;
    }
    let without = scaled(job, listing, &areas(job, 0));
    match without.is_better_than(&with_blade, job) {
        true => without,
        false => with_blade,
    }
}

/// The best prices that come of a solution's dual prices; none if none come that say anything of the
/// cost, as where the solver was stopped among prices that nothing could pay.
pub fn of_duals(job: &Job, listing: &Listing, duals: &[f64]) -> Option<Prices> {
    let prices = scaled(job, listing, duals);
    (prices.sum(job) > 0).then_some(prices)
}

/// Each item type's share of a board's cost by area, sides taken with a blade: of the size that gives
/// most area for its cost, among those from which an item can be cut.
pub fn areas(job: &Job, blade: usize) -> Vec<f64> {
    let area = |width, height| ((width + blade) * (height + blade)) as f64;
    let is_cut = |size: &&Size| job.items.iter().any(|item| fits_size(item, size));
    let cost = |size: &Size| size.cost as f64 / area(size.width, size.height);
    let least = job.sizes.iter().filter(is_cut).map(cost);
    let least = least.fold(f64::INFINITY, f64::min);
    job.items
        .iter()
        .map(|item| area(item.width, item.height) * least)
        .collect()
}

/// The best prices that come of these dual prices.
pub fn scaled(job: &Job, listing: &Listing, duals: &[f64]) -> Prices {
    let order = by_rising_area(listing);
    let least = Prices {
        denominator: 1,
        items: vec![0; duals.len()],
        residuals: vec![0; listing.residual_types()],
    };
    let mut best = least;
    for scale in 1..=MOST_PRICE {
        for rounded in [f64::round, f64::floor] {
            let whole = |dual: &f64| rounded(dual * scale as f64) as usize;
            let items: Vec<usize> = duals.iter().map(whole).collect();
            if items.iter().any(|&price| price > MOST_PRICE) {
                continue;
            }
            let prices = forced(job, listing, &order, items);
            let fits = prices.within_limits();
            if fits && prices.is_better_than(&best, job) {
                best = prices;
            }
        }
    }
    best
}

/// Plate types by rising area.
fn by_rising_area(listing: &Listing) -> Vec<usize> {
    let mut order: Vec<usize> = (0..listing.plates.len()).collect();
    order.sort_by_key(|&plate| listing.plates[plate].width * listing.plates[plate].height);
    order
}

/// The residual prices and the D that the cuts force, for these item prices.
fn forced(job: &Job, listing: &Listing, order: &[usize], items: Vec<usize>) -> Prices {
    let mut plates = vec![0; listing.plates.len()];
    for &plate in order {
        let first = listing.cuts.partition_point(|cut| cut.plate < plate);
        let cuts = listing.cuts[first..]
            .iter()
            .take_while(|cut| cut.plate == plate);
        let worth = cuts
            .map(|cut| items[cut.item - 1] + cut.kept().map(|kept| plates[kept]).sum::<usize>());
        plates[plate] = worth.max().unwrap_or(0);
    }
    let residuals = plates.split_off(listing.sizes);
    let boards = job.sizes.iter().zip(&plates);
    let least = boards.map(|(size, worth)| worth.div_ceil(size.cost));
    Prices {
        denominator: least.max().unwrap_or(0),
        items,
        residuals,
    }
}

impl Prices {
    /// The sum of price times demand; over D it is the bound.
    pub fn sum(&self, job: &Job) -> usize {
        self.items
            .iter()
            .zip(&job.items)
            .map(|(price, item)| price * item.demand)
            .sum()
    }

    /// Whether D and every price are within their limits.
    fn within_limits(&self) -> bool {
        let all = self.items.iter().chain(&self.residuals);
        self.denominator >= 1
            && all
                .chain([&self.denominator])
                .all(|&price| price <= MOST_PRICE)
    }

    /// Whether these prices give a higher bound than others, or the same with a lower D.
    fn is_better_than(&self, others: &Prices, job: &Job) -> bool {
        let own = self.sum(job) * others.denominator;
        let other = others.sum(job) * self.denominator;
        own > other || (own == other && self.denominator < others.denominator)
    }

    /// The prices as lines of kinds 4, 5 and 6; residual types are numbered after so many sizes.
    pub fn lines(&self, sizes: usize) -> String {
        let mut text = line(&[4, self.denominator, self.items.len(), self.residuals.len()]);
        for (kind, first, prices) in [(5, 1, &self.items), (6, sizes, &self.residuals)] {
            for (number, &price) in (first..).zip(prices) {
                text.push_str(&line(&[kind, number, price]));
            }
        }
        text
    }
}

#[cfg(test)]
mod tests {
    use super::*;
    use crate::job::tests::{example, job, job_a, job_on, job_with_blade, two_sizes};

    fn scaled_for(job: &Job, duals: &[f64]) -> Prices {
        scaled(job, &Listing::of(job).unwrap(), duals)
    }

    #[test]
    fn job_a_gets_the_prices_of_the_handbook() {
        let prices = scaled_for(&job_a(), &[1.0, 0.0]);
        let expected = Prices {
            denominator: 1,
            items: vec![1, 0],
            residuals: vec![0, 0, 1, 0, 0],
        };
        assert_eq!(prices, expected);
        assert_eq!(prices.sum(&job_a()), 2);
    }

    #[test]
    fn dual_prices_that_no_board_pays_give_no_prices() {
        let listing = Listing::of(&job_a()).unwrap();
        for dual in [1e10, 1e30, f64::MAX, 1e-9] {
            assert_eq!(of_duals(&job_a(), &listing, &[dual, dual]), None, "{dual}");
        }
        let prices = of_duals(&job_a(), &listing, &[1.0, 0.0]).unwrap();
        assert_eq!(prices.sum(&job_a()), 2);
    }

    #[test]
    fn printed_thirds_become_whole_numbers() {
        let prices = scaled_for(&job("2N", [9, 3], &[[3, 3, 7]]), &[0.333333]);
        assert_eq!((prices.denominator, prices.items), (3, vec![1]));
        let prices = scaled_for(&example(), &[0.499999, 0.000001]);
        assert_eq!((prices.denominator, prices.items), (2, vec![1, 0]));
    }

    #[test]
    fn prices_by_area_count_the_blade() {
        // Two items of 5 by 4 and the blade of 1 fill a strip of 11; without it, 10 would do.
        let job = job_with_blade("2N", [11, 4], 1, &[[5, 4, 6]]);
        assert_eq!(areas(&job, job.blade), [0.5]);
        let prices = by_area(&job, &Listing::of(&job).unwrap());
        assert_eq!((prices.sum(&job), prices.denominator), (6, 2));
    }

    #[test]
    fn prices_by_area_are_taken_with_the_blade_or_without_it() {
        // With the blade the small size gives most area for its cost, and the large item is hardly worth a
        // seventh of its board; without it that size is the better one by little.
        let sizes = [[100, 100, 999], [10, 10, 9]];
        let items = [[100, 100, 1], [10, 10, 1]];
        let job = Job {
            blade: 20,
            ..job_on("2N", &sizes, &items)
        };
        assert_eq!(areas(&job, 20), [144.0, 9.0]);
        assert_eq!(areas(&job, 0), [900.0, 9.0]);
        let prices = by_area(&job, &Listing::of(&job).unwrap());
        assert_eq!((prices.sum(&job), prices.denominator), (909, 1));
    }

    #[test]
    fn a_size_may_be_priced_up_to_d_times_its_cost() {
        // Item 1 alone has a price; it can be cut from the first size and from the residual of 9 by 4.
        let prices = scaled_for(&two_sizes(), &[3.0, 0.0]);
        let expected = Prices {
            denominator: 1,
            items: vec![3, 0],
            residuals: vec![0, 0, 3, 0, 0],
        };
        assert_eq!(prices, expected);
        assert!(prices.lines(2).contains("        6        2        0\n"));
        // A dear size: prices reach their limit before D does.
        let dear = job_on("2N", &[[9, 7, 999]], &[[9, 7, 2]]);
        let prices = scaled_for(&dear, &[999.0]);
        assert_eq!((prices.sum(&dear), prices.denominator), (1998, 1));
    }

    #[test]
    fn prices_on_a_dear_size_are_rounded_down_where_rounding_up_costs_more() {
        // D is low on a size of 999, since residual prices end at 9,999, and one price rounded up can
        // raise it by a whole step. The area asks for a cost of 75,924.
        let demands = [39, 7, 33, 47, 13, 30, 53, 50];
        let items: Vec<[usize; 3]> = (3..).zip(demands).map(|(w, d)| [w, 1, d]).collect();
        let dear = job_on("2N", &[[25, 1, 999]], &items);
        let prices = scaled_for(&dear, &areas(&dear, 0));
        let bound = (prices.sum(&dear), prices.denominator);
        assert_eq!(bound, (759_130, 10));
    }

    #[test]
    fn prices_by_area_are_those_of_the_size_with_most_area_for_its_cost() {
        let job = job_on(
            "2N",
            &[[10, 10, 10], [10, 1, 1], [1, 1, 1]],
            &[[5, 2, 1], [10, 1, 1]],
        );
        assert_eq!(areas(&job, 0), [1.0, 1.0]);
        let job = job_on("2N", &[[10, 10, 50], [20, 10, 50]], &[[5, 2, 1]]);
        assert_eq!(areas(&job, 0), [2.5]);
    }

    #[test]
    fn any_dual_prices_give_prices_within_the_limits() {
        let job = job("3N", [29, 23], &[[13, 7, 4], [11, 9, 3], [8, 6, 9]]);
        for duals in [
            [0.1, 0.2, 0.3],
            [5.0, 0.0, 1e-9],
            [1e-7, 1e-7, 1e-7],
            [1e9, 1.0, 1.0],
        ] {
            let prices = scaled_for(&job, &duals);
            let all = prices.items.iter().chain(&prices.residuals);
            assert!(all.max() <= Some(&prices.denominator));
            assert!((1..=MOST_PRICE).contains(&prices.denominator));
        }
    }

    #[test]
    fn a_solution_without_dual_prices_is_told() {
        let fault = duals(&job_a(), &Solution::default()).unwrap_err();
        assert!(fault.contains("relaxation"), "{fault}");
    }

    #[test]
    fn the_limit_of_cuts_is_shared() {
        let mut solution = Solution::default();
        for (name, dual) in [("item_1", 1.5), ("item_2", 0.25), ("pieces", -0.5)] {
            solution.duals.insert(name.into(), dual);
        }
        assert_eq!(duals(&job_a(), &solution), Ok(vec![1.0, 0.0]));
    }
}
