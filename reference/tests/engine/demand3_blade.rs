//! Demand 3 with a blade of any width within its limits, on boards of 1 to 25: both halves, with
//! rectangles at least the blade apart (document 02, Four). The blade is often wider than every side.

use crate::common::check::{self, Line};
use crate::common::jobs::{random_blade_job_in, words_of};
use crate::common::lent::Lent;
use crate::common::plans::random_plan;
use crate::common::random::Random;
use crate::common::refused;
use crate::common::sets::random_set;
use crate::demand3_folding::assert_folding;
use crate::demand3_unfolding::assert_unfolding;
use reference::listing::FULL;
use reference::{Job, Listing, Mode};

/// Lines of a good set that differ in positions alone are refused for the first that differs.
/// Gives whether one does.
fn assert_other_gaps(lent: &mut Lent, job: &Job, good: &[Line], other: &[Line]) -> bool {
    let differs = good.iter().zip(other).position(|(one, two)| one != two);
    if let Some(index) = differs {
        let answer = lent.fold(&words_of(job), other);
        assert_eq!(answer, refused(18, index as u32 + 1));
    }
    differs.is_some()
}

/// Random jobs in one mode, each with a random set and a random plan.
fn both_halves(mode: Mode, seed: u64) {
    let mut random = Random::new(seed);
    let mut lent = Lent::new();
    let [mut above, mut gaps, mut refusals] = [0; 3];
    for _ in 0..4_000 {
        let job = random_blade_job_in(&mut random, mode);
        let listing = Listing::walk(&job, FULL).unwrap();
        let set = random_set(&mut random, &job);
        assert_folding(&mut lent, &job, &listing, &set);
        let counts = random_plan(&mut random, &job, &listing);
        assert_unfolding(&mut lent, &job, &listing, &counts);
        let longest = job.sizes.iter().map(|size| size.width.max(size.height));
        above += usize::from(job.blade > longest.max().unwrap());
        let lines = check::lines(&job, &set);
        let boards = lines.last().map_or(0, |line| usize::from(line[0]));
        gaps += usize::from(job.blade > 0 && lines.len() > boards);
        let by = random.pick(&[job.blade + 1, job.blade.saturating_sub(1), 0]);
        let other = Job {
            blade: by,
            ..job.clone()
        };
        let laid = check::lines(&other, &set);
        refusals += usize::from(assert_other_gaps(&mut lent, &job, &lines, &laid));
    }
    assert!(above > 500, "{above} blades are above every side");
    assert!(gaps > 500, "{gaps} sets have gaps");
    assert!(refusals > 500, "{refusals} sets are laid with other gaps");
}

#[test]
fn both_halves_in_2e() {
    both_halves(Mode::TwoExact, 81);
}

#[test]
fn both_halves_in_2n() {
    both_halves(Mode::TwoNonExact, 82);
}

#[test]
fn both_halves_in_3e() {
    both_halves(Mode::ThreeExact, 83);
}

#[test]
fn both_halves_in_3n() {
    both_halves(Mode::ThreeNonExact, 84);
}
