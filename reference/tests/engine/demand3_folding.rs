//! Demand 3, second half, on random jobs: every set of layouts that keeps the rules and meets
//! the demands folds into an accepted plan with the set's boards of each size
//! and its items.

use crate::common::check;
use crate::common::jobs::{random_job_in, random_large_job, words_of};
use crate::common::lent::Lent;
use crate::common::outlay;
use crate::common::plain;
use crate::common::random::Random;
use crate::common::sets::random_set;
use reference::folding::fold;
use reference::layout::{keeps_rules, placements};
use reference::listing::FULL;
use reference::{Board, Job, Listing, Mode, Placement};

/// All of the second half for one job and one set.
pub fn assert_folding(lent: &mut Lent, job: &Job, listing: &Listing, set: &[Board]) {
    let words = words_of(job);
    assert!(check::keeps_rules(job, set));
    assert!(set.iter().all(|board| keeps_rules(job, board)));
    let lines = check::lines(job, set);
    check::rectangles_apart(job, &lines);
    let structured: Vec<check::Line> = placements(job, set).iter().map(Placement::words).collect();
    assert_eq!(structured, lines);
    let cuts = plain::listing(&words).1;
    let boards = check::boards_of_sizes(job, &lines, false);
    let cost = check::cost_of(job, &boards);
    let opened = outlay(set.len() as u32, cost);
    assert_eq!(lent.fold(&words, &lines), opened);
    let counts = lent.counts[..listing.cuts.len()].to_vec();
    assert_eq!(counts, fold(job, listing, set));
    assert_eq!(check::boards_of_counts(job, &cuts, &counts), boards);
    assert_eq!(lent.test_plan(&words, &counts), opened);
    let laid = check::laid(job, &lines);
    assert_eq!(cut_of_type(job, listing, &counts), laid);
    let laid_in_turns = check::laid_in_turns(job, &lines);
    let cut_in_turns = check::cut_in_turns(job, &cuts, &counts);
    assert_eq!(cut_in_turns, laid_in_turns);
    // The unfolding of the plan is another such set.
    let unfolded = lent.unfold(&words, &counts).unwrap();
    assert_eq!(unfolded.boards, set.len() as u32);
    let unfolded = lent.lines();
    assert_eq!(check::boards_of_sizes(job, &unfolded, true), boards);
    assert_eq!(check::laid(job, &unfolded), laid);
    assert_eq!(check::laid_in_turns(job, &unfolded), laid_in_turns);
    assert_eq!(lent.fold(&words, &unfolded), opened);
    assert_eq!(lent.counts[..counts.len()], counts);
}

/// How often the counts cut each type.
fn cut_of_type(job: &Job, listing: &Listing, counts: &[u16]) -> Vec<u32> {
    let mut cut_of_type = vec![0; job.items.len()];
    for (cut, &count) in listing.cuts.iter().zip(counts) {
        cut_of_type[usize::from(cut.position.item) - 1] += u32::from(count);
    }
    cut_of_type
}

/// Random jobs in one mode, each with a random set.
fn fold_random_sets(mode: Mode, seed: u64) {
    let mut random = Random::new(seed);
    let mut lent = Lent::new();
    let [mut stacked, mut turned, mut falling] = [0; 3];
    for _ in 0..6_000 {
        let job = random_job_in(&mut random, mode);
        let listing = Listing::walk(&job, FULL).unwrap();
        let set = random_set(&mut random, &job);
        assert_folding(&mut lent, &job, &listing, &set);
        let strips = || set.iter().flat_map(|board| &board.strips);
        let stacks = strips().flatten();
        stacked += stacks.filter(|stack| stack.len() > 1).count();
        let pieces = strips().flatten().flatten();
        turned += pieces.filter(|piece| piece.turned).count();
        let falls = set.windows(2).any(|pair| pair[0].size > pair[1].size);
        falling += usize::from(falls);
    }
    assert!(turned > 5_000, "{turned} pieces are turned");
    assert!(
        falling > 500,
        "{falling} sets have a size below the one before"
    );
    assert_eq!(stacked > 1_000, !mode.is_two_stage());
}

#[test]
fn sets_in_2e() {
    fold_random_sets(Mode::TwoExact, 31);
}

#[test]
fn sets_in_2n() {
    fold_random_sets(Mode::TwoNonExact, 32);
}

#[test]
fn sets_in_3e() {
    fold_random_sets(Mode::ThreeExact, 33);
}

#[test]
fn sets_in_3n() {
    fold_random_sets(Mode::ThreeNonExact, 34);
}

#[test]
fn sets_of_large_jobs() {
    let mut random = Random::new(35);
    let mut lent = Lent::new();
    let mut listed = 0;
    for round in 0..400 {
        let job = random_large_job(&mut random, Mode::ALL[round % 4]);
        let Ok(listing) = Listing::walk(&job, FULL) else {
            continue;
        };
        let set = random_set(&mut random, &job);
        assert_folding(&mut lent, &job, &listing, &set);
        listed += 1;
    }
    assert!(listed > 200, "{listed} jobs were listed");
}
