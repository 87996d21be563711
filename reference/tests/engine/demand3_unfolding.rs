//! Demand 3, first half, on random jobs: the unfolding of every accepted plan is a set of
//! layouts that keeps the rules, with the plan's boards of each size and its items,
//! sizes rising from board to board, and folds back into the plan.

use crate::common::check::{self, Line};
use crate::common::jobs::{random_job_in, random_large_job, words_of};
use crate::common::lent::Lent;
use crate::common::outlay;
use crate::common::plain;
use crate::common::plans::random_plan;
use crate::common::random::Random;
use reference::layout::{keeps_rules, placements};
use reference::layout_lines::set_of;
use reference::listing::FULL;
use reference::unfolding::unfold;
use reference::{Board, Job, Listing, Mode, Placement};

/// How often the plan cuts each type, and how many boards of each size it opens.
fn cut_and_opened(job: &Job, listing: &Listing, counts: &[u16]) -> (Vec<u32>, Vec<u32>) {
    let mut cut_of_type = vec![0; job.items.len()];
    let mut opened = vec![0; job.sizes.len()];
    for (cut, &count) in listing.cuts.iter().zip(counts) {
        cut_of_type[usize::from(cut.position.item) - 1] += u32::from(count);
        if usize::from(cut.plate) < job.sizes.len() {
            opened[usize::from(cut.plate)] += u32::from(count);
        }
    }
    (cut_of_type, opened)
}

/// The structured unfolding spends every count, and its set is the lines' set.
fn assert_structured(job: &Job, listing: &Listing, counts: &[u16], lines: &[Line]) {
    let unfolding = unfold(job, listing, counts);
    assert!(unfolding.left.iter().all(|&count| count == 0));
    let words: Vec<Line> = unfolding.placements.iter().map(Placement::words).collect();
    assert_eq!(words, lines);
    let set = set_of(&unfolding.placements);
    assert_eq!(set, check::set_in_turn(lines));
    assert!(set.iter().all(|board| keeps_rules(job, board)));
    assert_eq!(placements(job, &set), unfolding.placements);
}

/// The lines are a set of layouts with these boards and these numbers of items.
fn assert_set(job: &Job, lines: &[Line], boards: &[u32], cut_of_type: &[u32]) -> Vec<Board> {
    let set = check::set_in_turn(lines);
    assert!(check::keeps_rules(job, &set));
    assert_eq!(check::lines(job, &set), lines);
    check::rectangles_apart(job, lines);
    assert_eq!(check::laid(job, lines), cut_of_type);
    assert!(check::meets_demands(job, cut_of_type));
    assert_eq!(set.len(), boards.iter().sum::<u32>() as usize);
    assert_eq!(check::boards_of_sizes(job, lines, true), boards);
    assert!(set.iter().all(|board| !board.strips.is_empty()));
    set
}

/// All of the first half for one job and one plan.
pub fn assert_unfolding(lent: &mut Lent, job: &Job, listing: &Listing, counts: &[u16]) {
    let words = words_of(job);
    let (cut_of_type, opened) = cut_and_opened(job, listing, counts);
    let boards = opened.iter().sum();
    let spent = outlay(boards, check::cost_of(job, &opened));
    assert_eq!(lent.test_plan(&words, counts), spent);
    let unfolded = lent.unfold(&words, counts).unwrap();
    assert_eq!(unfolded.boards, boards);
    let lines = lent.lines();
    assert_eq!(unfolded.pieces as usize, lines.len());
    assert_eq!(unfolded.pieces, cut_of_type.iter().sum::<u32>());
    assert_set(job, &lines, &opened, &cut_of_type);
    let cuts = plain::listing(&words).1;
    let cut_in_turns = check::cut_in_turns(job, &cuts, counts);
    assert_eq!(check::laid_in_turns(job, &lines), cut_in_turns);
    assert_structured(job, listing, counts, &lines);
    assert_eq!(lent.fold(&words, &lines), spent);
    assert_eq!(lent.counts[..counts.len()], *counts);
}

/// Random jobs in one mode, each with a random plan.
fn unfold_random_plans(mode: Mode, seed: u64) {
    let mut random = Random::new(seed);
    let mut lent = Lent::new();
    let [mut pieces, mut turned, mut mixed] = [0; 3];
    for _ in 0..6_000 {
        let job = random_job_in(&mut random, mode);
        let listing = Listing::walk(&job, FULL).unwrap();
        let counts = random_plan(&mut random, &job, &listing);
        assert_unfolding(&mut lent, &job, &listing, &counts);
        let lines = lent.lines();
        pieces += lines.len();
        turned += lines.iter().filter(|line| line[8] == 1).count();
        mixed += usize::from(lines.iter().any(|line| line[1] != lines[0][1]));
    }
    assert!(pieces > 30_000 && turned > 5_000, "{pieces}, {turned}");
    assert!(mixed > 1_000, "{mixed} plans open boards of several sizes");
}

#[test]
fn plans_in_2e() {
    unfold_random_plans(Mode::TwoExact, 21);
}

#[test]
fn plans_in_2n() {
    unfold_random_plans(Mode::TwoNonExact, 22);
}

#[test]
fn plans_in_3e() {
    unfold_random_plans(Mode::ThreeExact, 23);
}

#[test]
fn plans_in_3n() {
    unfold_random_plans(Mode::ThreeNonExact, 24);
}

#[test]
fn plans_of_many_pieces() {
    let mut random = Random::new(25);
    let mut lent = Lent::new();
    for round in 0..120 {
        let mut job = random_job_in(&mut random, Mode::ALL[round % 4]);
        for item in &mut job.items {
            item.demand = 1;
        }
        let listing = Listing::walk(&job, FULL).unwrap();
        // Many plans added up are a plan.
        let mut counts = vec![0; listing.cuts.len()];
        while counts.iter().sum::<u16>() < 1_000 {
            let more = random_plan(&mut random, &job, &listing);
            for (count, more) in counts.iter_mut().zip(more) {
                *count += more;
            }
        }
        assert_unfolding(&mut lent, &job, &listing, &counts);
    }
}

#[test]
fn plans_of_large_jobs() {
    let mut random = Random::new(26);
    let mut lent = Lent::new();
    let mut listed = 0;
    for round in 0..400 {
        let job = random_large_job(&mut random, Mode::ALL[round % 4]);
        let Ok(listing) = Listing::walk(&job, FULL) else {
            continue;
        };
        let counts = random_plan(&mut random, &job, &listing);
        assert_unfolding(&mut lent, &job, &listing, &counts);
        listed += 1;
    }
    assert!(listed > 200, "{listed} jobs were listed");
}
