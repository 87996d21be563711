//! Demand 3 over several sizes without chance (document 02, Six): the least cost of layouts, found by
//! trying all boards of all sizes, is the least cost of plans; all small plans; bounds.

use crate::common::check;
use crate::common::jobs::job_on;
use crate::common::lent::Lent;
use crate::common::plain;
use crate::common::prices::{least_prices, words_of as price_words};
use crate::common::random::Random;
use crate::demand3_small::{all_boards, all_counts, laid_on};
use reference::layout::keeps_rules;
use reference::listing::FULL;
use reference::{Job, Listing, Mode};
use std::collections::{BTreeMap, HashSet};

/// Sizes, the blade, and sides, demand and leave of two item types: a small size beside a large one,
/// equal ones at equal and at other costs, one that nothing fits, one that a residual equals, one for
/// each type.
type Small = (&'static [[u16; 3]], u16, [[u16; 4]; 2]);
const SMALL: [Small; 12] = [
    (&[[3, 3, 2], [2, 2, 1]], 0, [[1, 2, 1, 0], [2, 1, 1, 0]]),
    (&[[2, 2, 1], [3, 3, 2]], 0, [[1, 2, 1, 0], [2, 2, 1, 0]]),
    (&[[3, 2, 3], [3, 1, 1]], 0, [[3, 1, 1, 0], [1, 1, 1, 0]]),
    (
        &[[3, 3, 5], [1, 1, 1], [3, 3, 4]],
        0,
        [[2, 2, 1, 0], [1, 2, 1, 1]],
    ),
    (&[[2, 3, 1], [2, 3, 1]], 0, [[1, 3, 1, 0], [2, 1, 1, 1]]),
    (&[[4, 1, 2], [1, 4, 3]], 0, [[4, 1, 1, 0], [1, 2, 1, 0]]),
    (
        &[[4, 2, 9], [2, 2, 4], [1, 1, 1]],
        0,
        [[2, 2, 1, 0], [1, 1, 1, 0]],
    ),
    (&[[5, 3, 7], [2, 3, 4]], 1, [[2, 3, 1, 0], [1, 1, 1, 0]]),
    (&[[5, 4, 3], [3, 4, 2]], 1, [[1, 4, 1, 0], [2, 1, 1, 1]]),
    (&[[4, 4, 999], [3, 3, 1]], 2, [[3, 1, 1, 1], [1, 2, 1, 0]]),
    (&[[3, 1, 1], [3, 3, 2]], 20, [[2, 1, 1, 1], [1, 3, 1, 0]]),
    (
        &[[3, 2, 10], [2, 2, 6], [1, 2, 3]],
        0,
        [[1, 2, 1, 0], [1, 1, 1, 0]],
    ),
];

/// The least cost of boards, each with what lies on it, on which the two types lie as often as
/// demanded: by what is still missing, cheapest first.
fn least_cost(boards: &HashSet<([u16; 2], u32)>, demands: [u16; 2]) -> u32 {
    let mut reached = BTreeMap::from([(0, HashSet::from([demands]))]);
    loop {
        let (cost, missing) = reached.pop_first().unwrap();
        if missing.contains(&[0, 0]) {
            return cost;
        }
        for missing in missing {
            for &(laid, more) in boards {
                let after = [0, 1].map(|item: usize| missing[item].saturating_sub(laid[item]));
                if after != missing {
                    reached.entry(cost + more).or_default().insert(after);
                }
            }
        }
    }
}

/// What lies on the boards of all sizes that keep the rules, with the cost of each.
fn all_kept(structured: &Job) -> HashSet<([u16; 2], u32)> {
    let mut kept = HashSet::new();
    for (number, size) in (0..).zip(&structured.sizes) {
        for board in all_boards(structured, number) {
            let keeps = check::keeps_rules(structured, std::slice::from_ref(&board));
            assert_eq!(keeps_rules(structured, &board), keeps);
            if keeps {
                kept.insert((laid_on(&board), u32::from(size.cost)));
            }
        }
    }
    kept
}

/// No accepted price list has a bound above the least cost, and "cheapest" is 1 for that cost alone.
/// Gives whether some list shows it.
fn assert_bounds(random: &mut Random, words: &[u16], least: u32) -> bool {
    let structured = Job::from_words(words).unwrap();
    let listing = Listing::walk(&structured, FULL).unwrap();
    let mut shown = false;
    for _ in 0..4 {
        let Some(prices) = least_prices(random, &structured, &listing) else {
            continue;
        };
        let bound = Lent::new()
            .test_prices(words, &price_words(&prices))
            .unwrap();
        assert!(bound.sum <= least * bound.d, "{words:?}");
        assert!(!bound.is_cheapest(least + 1), "{words:?}");
        shown |= bound.is_cheapest(least);
    }
    shown
}

#[test]
fn no_plan_costs_less_than_layouts_do_and_some_plan_as_little() {
    let mut random = Random::new(91);
    let [mut jobs, mut shown, mut mixed] = [0; 3];
    for mode in Mode::ALL {
        for (sizes, blade, items) in SMALL {
            let kept = all_kept(&Job::from_words(&job_on(mode, sizes, blade, &items)).unwrap());
            for demands in [[1, 1], [2, 1], [1, 2], [2, 2]] {
                let [mut first, mut second] = items;
                [first[2], second[2]] = demands;
                let words = job_on(mode, sizes, blade, &[first, second]);
                let least = least_cost(&kept, demands);
                let cuts = plain::listing(&words).1.len();
                let most = demands[0] + demands[1] + u16::from(cuts < 10);
                let plans = all_counts(cuts, most).into_iter();
                let accepted: Vec<(u32, Vec<u16>)> = plans
                    .filter_map(|counts| Some((plain::accepts(&words, &counts)?[1], counts)))
                    .collect();
                let found = accepted.iter().map(|(cost, _)| *cost).min();
                assert_eq!(found, Some(least), "{words:?}");
                let cheapest = accepted.iter().filter(|(cost, _)| *cost == least);
                let structured = Job::from_words(&words).unwrap();
                let cut = plain::listing(&words).1;
                let several = |counts: &Vec<u16>| {
                    let boards = check::boards_of_counts(&structured, &cut, counts);
                    boards.iter().filter(|&&many| many > 0).count() > 1
                };
                mixed += usize::from(cheapest.map(|(_, counts)| counts).all(several));
                shown += usize::from(assert_bounds(&mut random, &words, least));
                jobs += 1;
            }
        }
    }
    assert_eq!(jobs, 192);
    assert!(shown > 50, "{shown} are shown to be the cheapest");
    assert!(mixed > 10, "{mixed} need boards of several sizes");
}

#[test]
fn all_small_plans_over_several_sizes() {
    let mut lent = Lent::new();
    let mut accepted = 0;
    for mode in Mode::ALL {
        for (sizes, blade, items) in SMALL {
            let words = job_on(mode, sizes, blade, &items);
            let structured = Job::from_words(&words).unwrap();
            let (_, cuts) = plain::listing(&words);
            let most = if cuts.len() > 9 { 3 } else { 4 };
            let mut sets = HashSet::new();
            for counts in all_counts(cuts.len(), most) {
                let opened = plain::accepts(&words, &counts);
                let tested = lent.test_plan(&words, &counts).ok();
                assert_eq!(tested.map(|outlay| [outlay.boards, outlay.cost]), opened);
                if opened.is_none() {
                    continue;
                }
                lent.unfold(&words, &counts).unwrap();
                let lines = lent.lines();
                check::rectangles_apart(&structured, &lines);
                assert!(check::keeps_rules(&structured, &check::set_in_turn(&lines)));
                let boards = check::boards_of_sizes(&structured, &lines, true);
                assert_eq!(boards, check::boards_of_counts(&structured, &cuts, &counts));
                assert_eq!(lent.fold(&words, &lines).ok(), tested);
                assert_eq!(lent.counts[..cuts.len()], counts);
                assert!(sets.insert(lines));
                accepted += 1;
            }
        }
    }
    assert!(accepted > 2_000, "{accepted} plans were accepted");
}
