//! The area balance on random jobs: of every accepted plan the items, offcuts, waste and swath of
//! each board make the board; where offcuts lie, and how many there are (document 02, Two, Four and
//! Six).

use crate::common::jobs::{random_blade_job_in, random_job_in, random_large_job, words_of};
use crate::common::lent::Lent;
use crate::common::parts::{self, Part};
use crate::common::plain;
use crate::common::plans::random_plan;
use crate::common::random::Random;
use reference::balance::of_boards;
use reference::listing::FULL;
use reference::unfolding::unfold;
use reference::{Balance, Job, Lengths, Listing, Mode, Unfolded};

/// Two lengths within their limits; most are reached by some offcuts and not by others.
fn random_lengths(random: &mut Random, job: &Job) -> [u16; 2] {
    let size = job.sizes[0];
    [size.width, size.height].map(|side| random.between(1, side))
}

/// The offcuts that the call wrote are those of the structured unfolding, have the sides of their
/// plate types, and are marked by the two lengths. Gives the cut of each item.
fn assert_records(job: &Job, listing: &Listing, counts: &[u16], lengths: [u16; 2]) -> Vec<usize> {
    let mut lent = Lent::new();
    let words = words_of(job);
    let answer = lent.unfold_with(&words, counts, lengths);
    let unfolding = unfold(job, listing, counts);
    assert_eq!(answer, Ok(Unfolded::of(&unfolding)));
    let records = lent.left_over();
    let within = Lengths::from_words(lengths).unwrap();
    let structured = unfolding.offcuts.iter().map(|offcut| offcut.words(within));
    assert!(structured.eq(records.iter().copied()));
    let (plates, _) = plain::listing(&words);
    for (offcut, record) in unfolding.offcuts.iter().zip(&records) {
        assert_eq!(plates[usize::from(offcut.plate)][..2], record[3..5]);
        let reached = record[3] >= lengths[0] && record[4] >= lengths[1];
        assert_eq!(record[5], u16::from(reached));
    }
    let mut done = vec![0; counts.len()];
    unfolding.cuts.iter().for_each(|&cut| done[cut] += 1);
    assert_eq!(done, counts);
    unfolding.cuts
}

/// Of each plate type as many pieces are left over as arise and are not cut, and no size; all
/// together as many as boards and kept residuals less the cuts.
fn assert_numbers(job: &Job, listing: &Listing, counts: &[u16]) {
    let unfolding = unfold(job, listing, counts);
    let mut over = vec![0; listing.plates.len()];
    for offcut in &unfolding.offcuts {
        over[usize::from(offcut.plate)] += 1;
    }
    let mut expected = vec![0; listing.plates.len()];
    for &size in &unfolding.sizes {
        expected[usize::from(size)] += 1;
    }
    let [mut kept, mut cuts] = [0, 0];
    let (_, records) = plain::listing(&words_of(job));
    for ([plate, _, top, right], &count) in records.into_iter().zip(counts) {
        expected[usize::from(plate)] -= i32::from(count);
        cuts += u32::from(count);
        for residual in [top, right].into_iter().filter(|&residual| residual > 0) {
            expected[usize::from(residual)] += i32::from(count);
            kept += u32::from(count);
        }
    }
    assert_eq!(over, expected);
    assert!(over[..job.sizes.len()].iter().all(|&many| many == 0));
    let left_over = unfolding.offcuts.len() as u32;
    assert_eq!(left_over, unfolding.sizes.len() as u32 + kept - cuts);
    assert!(left_over <= 8_000);
}

/// The areas of items, offcuts, waste and swath.
type Areas = [u64; 4];

/// Items, offcuts, waste and swath of each board, in the structured balance and in plain sums, make
/// the board's own W times H. Gives the areas of all boards together.
fn assert_balance(job: &Job, sizes: &[u16], balances: &[Balance], parts: [&[Part]; 4]) -> Areas {
    let mut together = [0; 4];
    for ((board, balance), &size) in (1..).zip(balances).zip(sizes) {
        let size = job.sizes[usize::from(size)];
        let whole = u64::from(size.width) * u64::from(size.height);
        let sums = parts.map(|parts| parts::area_on(board, parts));
        let [items, offcuts, waste, swath] = sums;
        assert_eq!([balance.items, balance.offcuts], [items, offcuts]);
        assert_eq!([balance.waste, balance.swath], [waste, swath]);
        assert_eq!(balance.whole(), whole);
        assert_eq!(sums.iter().sum::<u64>(), whole);
        together = add(together, sums);
    }
    together
}

/// Areas added up, each kind with its own.
fn add(one: Areas, other: Areas) -> Areas {
    std::array::from_fn(|kind| one[kind] + other[kind])
}

/// All of it for one job and one plan; items and offcuts are at least the blade apart, and on a
/// small board all parts are painted. Gives the areas of all boards together.
fn assert_parts(job: &Job, counts: &[u16], lengths: [u16; 2], small: bool) -> Areas {
    let listing = Listing::walk(job, FULL).unwrap();
    let words = words_of(job);
    let cuts = assert_records(job, &listing, counts, lengths);
    assert_numbers(job, &listing, counts);
    let mut lent = Lent::new();
    let unfolded = lent.unfold_with(&words, counts, lengths).unwrap();
    let items = parts::items(&words, &lent.lines());
    let sizes = parts::sizes_of_boards(&lent.lines());
    assert_eq!(sizes.len(), unfolded.boards as usize);
    let offcuts = parts::offcuts(&lent.left_over());
    let waste = parts::waste(&words, &items, &cuts);
    let swath = parts::swath(&words, &items, &cuts);
    parts::assert_apart(&words, &sizes, &[&items[..], &offcuts].concat());
    if small {
        let all = [&items[..], &offcuts, &waste, &swath].concat();
        parts::assert_partition(&words, &sizes, &all);
    }
    let balances = of_boards(job, &listing, &unfold(job, &listing, counts));
    assert_eq!(balances.len(), unfolded.boards as usize);
    assert_balance(job, &sizes, &balances, [&items, &offcuts, &waste, &swath])
}

/// Random jobs in one mode, every other one with a blade of any width, each with a random plan;
/// there are offcuts, waste and swath among them, and turned items.
fn balance_random_plans(mode: Mode, seed: u64) {
    let mut random = Random::new(seed);
    let mut together = [0; 4];
    let mut turned = 0;
    for round in 0..2_400 {
        let job = match round % 2 {
            0 => random_job_in(&mut random, mode),
            _ => random_blade_job_in(&mut random, mode),
        };
        let listing = Listing::walk(&job, FULL).unwrap();
        let counts = random_plan(&mut random, &job, &listing);
        let lengths = random_lengths(&mut random, &job);
        let areas = assert_parts(&job, &counts, lengths, true);
        together = add(together, areas);
        let cuts = listing.cuts.iter().zip(&counts);
        turned += cuts
            .filter(|(cut, &count)| cut.position.turned && count > 0)
            .count();
    }
    assert!(together.iter().all(|&area| area > 20_000), "{together:?}");
    assert!(turned > 800, "{turned}");
}

#[test]
fn plans_in_2e() {
    balance_random_plans(Mode::TwoExact, 71);
}

#[test]
fn plans_in_2n() {
    balance_random_plans(Mode::TwoNonExact, 72);
}

#[test]
fn plans_in_3e() {
    balance_random_plans(Mode::ThreeExact, 73);
}

#[test]
fn plans_in_3n() {
    balance_random_plans(Mode::ThreeNonExact, 74);
}

#[test]
fn plans_of_large_jobs() {
    let mut random = Random::new(75);
    let mut listed = 0;
    for round in 0..200 {
        let job = random_large_job(&mut random, Mode::ALL[round % 4]);
        let Ok(listing) = Listing::walk(&job, FULL) else {
            continue;
        };
        let counts = random_plan(&mut random, &job, &listing);
        let lengths = random_lengths(&mut random, &job);
        assert_parts(&job, &counts, lengths, false);
        listed += 1;
    }
    assert!(listed > 100, "{listed} jobs were listed");
}

#[test]
fn job_a_wastes_seven_on_its_first_board_and_nothing_on_its_second() {
    let job = Job::from_words(&crate::common::jobs::job_a()).unwrap();
    let listing = Listing::walk(&job, FULL).unwrap();
    let unfolding = unfold(&job, &listing, &crate::common::jobs::PLAN_A);
    let balance = |[items, offcuts, waste, swath]: Areas| Balance {
        items,
        offcuts,
        waste,
        swath,
    };
    let expected = [[47, 9, 7, 0], [20, 43, 0, 0]].map(balance);
    assert_eq!(of_boards(&job, &listing, &unfolding), expected);
}
