//! Demand 3, prices: every set of layouts that keeps the rules and meets the demands costs at
//! least as much as the bound of every accepted price list.

use crate::common::check;
use crate::common::jobs::{random_job_in, words_of};
use crate::common::lent::Lent;
use crate::common::plans::random_plan;
use crate::common::prices::{area_prices, disturb, least_prices, words_of as price_words};
use crate::common::random::Random;
use crate::common::sets::random_set;
use reference::listing::FULL;
use reference::{Bound, Job, Listing, Mode, Prices, Refusal};

/// The sum over the demands and D, written plainly.
fn plain_bound(job: &Job, prices: &Prices) -> Bound {
    let mut sum = 0;
    for (item, &price) in job.items.iter().zip(&prices.items) {
        sum += u32::from(item.demand) * u32::from(price);
    }
    Bound {
        sum,
        d: u32::from(prices.denominator),
    }
}

/// The lowest cut over its limit, written plainly over the listing's words.
fn plain_test(job: &Job, listing: &Listing, prices: &Prices) -> Option<u32> {
    let words = price_words(prices);
    let residuals = 1 + prices.items.len();
    let price = |plate: u16| u32::from(words[residuals + usize::from(plate) - job.sizes.len()]);
    let kept = |plate: u16| if plate == 0 { 0 } else { price(plate) };
    let over = listing.cut_words().chunks(4).position(|cut| {
        let spent = u32::from(words[usize::from(cut[1] / 2)]) + kept(cut[2]) + kept(cut[3]);
        let limit = match job.sizes.get(usize::from(cut[0])) {
            Some(size) => u32::from(words[0]) * u32::from(size.cost),
            None => price(cut[0]),
        };
        spent > limit
    });
    over.map(|index| index as u32 + 1)
}

/// Tests a price list by the call and plainly; where it is accepted, gives its bound.
fn tested(lent: &mut Lent, job: &Job, listing: &Listing, prices: &Prices) -> Option<Bound> {
    let expected = match plain_test(job, listing, prices) {
        None => Ok(plain_bound(job, prices)),
        Some(place) => Err(Refusal { number: 14, place }),
    };
    let answer = lent.test_prices(&words_of(job), &price_words(prices));
    assert_eq!(answer, expected);
    answer.ok()
}

/// Costs of sets that meet the demands: some made from the rules, some unfolded.
fn costs_of_sets(random: &mut Random, lent: &mut Lent, job: &Job, listing: &Listing) -> Vec<u32> {
    let mut costs = Vec::new();
    let cost = |lines: &[check::Line]| {
        let boards = check::boards_of_sizes(job, lines, false);
        check::cost_of(job, &boards)
    };
    for _ in 0..2 {
        let set = random_set(random, job);
        assert!(check::keeps_rules(job, &set));
        costs.push(cost(&check::lines(job, &set)));
        let counts = random_plan(random, job, listing);
        lent.unfold(&words_of(job), &counts).unwrap();
        costs.push(cost(&lent.lines()));
    }
    costs
}

/// Random jobs in one mode with price lists of every make.
fn bound_random_sets(mode: Mode, seed: u64) {
    let mut random = Random::new(seed);
    let mut lent = Lent::new();
    let (mut accepted, mut refused, mut tight) = (0, 0, 0);
    for _ in 0..6_000 {
        let job = random_job_in(&mut random, mode);
        let listing = Listing::walk(&job, FULL).unwrap();
        let costs = costs_of_sets(&mut random, &mut lent, &job, &listing);
        let denominator = random.pick(&[1, 10, 997, 9_999]);
        let area = area_prices(&job, &listing, denominator);
        assert!(tested(&mut lent, &job, &listing, &area).is_some());
        let mut lists = vec![area];
        if let Some(least) = least_prices(&mut random, &job, &listing) {
            assert!(tested(&mut lent, &job, &listing, &least).is_some());
            let mut disturbed = least.clone();
            disturb(&mut random, &mut disturbed);
            lists.extend([least, disturbed]);
        }
        for prices in lists {
            let Some(bound) = tested(&mut lent, &job, &listing, &prices) else {
                refused += 1;
                continue;
            };
            accepted += 1;
            let least = costs.iter().min().unwrap();
            for &cost in &costs {
                assert!(
                    cost * bound.d >= bound.sum,
                    "a cost of {cost} under {bound:?}"
                );
                let cheapest = bound.is_cheapest(cost);
                assert!(!cheapest || cost == *least);
                tight += usize::from(cheapest);
            }
        }
    }
    assert!(accepted > 12_000 && refused > 500 && tight > 500);
}

#[test]
fn bounds_in_2e() {
    bound_random_sets(Mode::TwoExact, 41);
}

#[test]
fn bounds_in_2n() {
    bound_random_sets(Mode::TwoNonExact, 42);
}

#[test]
fn bounds_in_3e() {
    bound_random_sets(Mode::ThreeExact, 43);
}

#[test]
fn bounds_in_3n() {
    bound_random_sets(Mode::ThreeNonExact, 44);
}
