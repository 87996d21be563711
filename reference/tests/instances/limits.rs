//! Jobs at the limits and one past them: the files of `data/limits/`.

use crate::calls::{assert_agreement, assert_texts};
use reference::instances::inputs::Inputs;
use reference::instances::limit_jobs::{limit_jobs, LimitJob, NONE};
use reference::instances::outcome;
use reference::{Job, Listed, Listing, Mode, Refusal};

/// The size that a walk without limits reaches.
fn size_without_limits(words: &[u16]) -> Listed {
    let job = Job::from_words(words).unwrap();
    let listing = Listing::walk(&job, NONE).unwrap();
    Listed {
        residuals: listing.residual_types() as u32,
        cuts: listing.cuts.len() as u32,
    }
}

fn mode(limit: &LimitJob) -> Mode {
    let [stages, exact] = [0, 1].map(|index| u32::from(limit.job.words[index]));
    Mode::from_numbers(stages, exact).unwrap()
}

/// The five calls on lent words that are not 0, each with inputs that fit no job.
fn refusals(job: &[u16]) -> [Option<Refusal>; 5] {
    let mut plates = vec![7; 8_192];
    let mut cuts = vec![7; 32_768];
    let [mut lent, mut last] = [vec![7; 36_000], vec![7; 48_000]];
    let counts = vec![0; 8_192];
    let answers = [
        reference::list(job, &mut plates, &mut cuts).err(),
        reference::test_plan(job, &counts, &mut plates, &mut cuts).err(),
        reference::test_prices(job, &[1], &mut plates, &mut cuts).err(),
        reference::unfold(
            job,
            &counts,
            [1, 1],
            &mut plates,
            &mut cuts,
            &mut lent,
            &mut last,
        )
        .err(),
        reference::fold(job, &[], &mut plates, &mut cuts, &mut lent).err(),
    ];
    let words = plates.iter().chain(&cuts).chain(&lent).chain(&last);
    assert!(words.into_iter().all(|&word| word == 0));
    answers
}

#[test]
fn jobs_at_the_limits_are_listed_planned_and_unfolded() {
    for limit in limit_jobs() {
        let (Ok(listed), Some(plan)) = (limit.listed, limit.plan) else {
            continue;
        };
        let job = limit.job;
        let inputs = Inputs::of(&job.words).unwrap();
        let found = outcome::of(&job.words, &inputs).unwrap();
        assert_eq!(
            (found.listed, [found.unfolded.boards, found.unfolded.pieces]),
            (listed, plan),
            "{}",
            job.name
        );
        assert_agreement(&job, &inputs, &found);
        assert_texts(&job, &inputs, &found);
    }
}

#[test]
fn jobs_past_the_limits_are_refused_by_every_call() {
    for limit in limit_jobs() {
        let LimitJob { job, listed, .. } = limit;
        match listed {
            Ok(_) => assert!(limit.plan.is_some(), "{}", job.name),
            Err(refusal) => assert_eq!(refusals(&job.words), [Some(refusal); 5], "{}", job.name),
        }
        if let Some(past) = limit.without_limits {
            assert_eq!(size_without_limits(&job.words), past, "{}", job.name);
        }
    }
}

/// Whether some job of this mode has just so many plate types and cuts, either of them any
/// number within its limit if none is given, and the answer is this.
fn some(wanted: Mode, plates: Option<u32>, cuts: Option<u32>, answer: Option<u32>) -> bool {
    limit_jobs().iter().any(|limit| {
        let size = limit.without_limits.or(limit.listed.ok());
        size.is_some_and(|size| {
            let met = size.residuals + u32::from(limit.job.words[2]);
            mode(limit) == wanted
                && plates.map_or(met <= 2_048, |many| met == many)
                && cuts.map_or(size.cuts <= 8_192, |many| size.cuts == many)
                && limit.listed.err().map(|refusal| refusal.number) == answer
        })
    })
}

#[test]
fn every_limit_is_met_and_passed_by_one_in_every_mode() {
    for mode in Mode::ALL {
        assert!(some(mode, Some(2_048), None, None));
        assert!(some(mode, Some(2_049), None, Some(6)));
        assert!(some(mode, None, Some(8_192), None));
        assert!(some(mode, None, Some(8_193), Some(7)));
        assert!(some(mode, Some(2_048), Some(8_192), None));
        assert!(some(mode, Some(2_048), Some(8_193), Some(7)));
    }
}

#[test]
fn the_largest_numbers_are_reached() {
    let mut most_words = [0; 12];
    let mut most_placed = [0; 9];
    let mut most_sum = 0;
    for limit in limit_jobs().iter().filter(|limit| limit.plan.is_some()) {
        let words = &limit.job.words;
        let (board, items) = words.split_at(5 + 3 * usize::from(words[2]));
        let (head, sizes) = board.split_at(5);
        let pairs = sizes.chunks(3).zip(items.chunks(4).cycle());
        let more = items.chunks(4).zip(sizes.chunks(3).cycle());
        for (size, item) in pairs.chain(more.map(|(item, size)| (size, item))) {
            let joined = [head, size, item].concat();
            most_words = std::array::from_fn(|index| joined[index].max(most_words[index]));
        }
        let found = outcome::of(words, &Inputs::of(words).unwrap()).unwrap();
        for line in found.placements.chunks(9) {
            most_placed = std::array::from_fn(|index| line[index].max(most_placed[index]));
        }
        most_sum = found.bound.sum.max(most_sum);
    }
    // Stages, exact, t, n, b; W, H, cost; width, height, demand, leave.
    let largest = [
        3, 1, 6, 40, 20, 10_000, 10_000, 999, 10_000, 10_000, 4_000, 0,
    ];
    assert_eq!(most_words, largest);
    // Board, size, strip, stack, place, type, x, y, turn.
    let largest = [4_000, 2, 2_000, 2_000, 1_000, 40, 9_999, 9_999, 0];
    assert_eq!(most_placed, largest);
    assert_eq!(most_sum, 39_996_000);
}
