//! A first plan without a solver: strips filled one after another, highest items first, as the second
//! implementation fills them for its tests. The saw has no such thing; it tests plans and finds none.

use crate::job::Job;
use crate::listing::{to_walk, too_large};
use reference::folding::fold;
use reference::greedy;
use reference::listing::FULL;

/// The counts of a plan that meets each demand exactly, one for each cut.
pub fn counts(job: &Job) -> Result<Vec<usize>, String> {
    let walked = to_walk(job);
    let listing = reference::Listing::walk(&walked, FULL).map_err(too_large)?;
    let counts = fold(&walked, &listing, &greedy::set(&walked));
    Ok(counts.into_iter().map(usize::from).collect())
}

#[cfg(test)]
mod tests {
    use super::*;
    use crate::job::tests::{job, job_a, job_with_blade, job_with_leave, two_sizes};
    use crate::listing::Listing;
    use crate::plan;

    #[test]
    fn a_first_plan_is_accepted() {
        let jobs = [
            (job_a(), 2),
            (two_sizes(), 6),
            (
                job_with_blade("3N", [20, 10], 2, &[[8, 9, 3], [8, 4, 5]]),
                3,
            ),
            (
                job_with_leave("3E", [9, 4], &[[4, 5, 2, 1], [2, 4, 1, 1]]),
                2,
            ),
        ];
        for (job, cost) in jobs {
            let listing = Listing::of(&job).unwrap();
            let counts = counts(&job).unwrap();
            assert_eq!(plan::accepted(&job, &listing, &counts), Ok(()));
            assert_eq!(plan::cost(&job, &listing, &counts), cost, "{job:?}");
            let text = job.text() + &plan::lines(&listing, &counts);
            let answer = reference::saw_text(text.as_bytes());
            assert!(!answer.starts_with(b"        9"));
            for (item_type, item) in (1..).zip(&job.items) {
                let cut = plan::cut_of_type(&listing, &counts, item_type);
                assert_eq!(cut, item.demand);
            }
        }
    }

    #[test]
    fn a_job_past_the_limits_is_told() {
        let fine = job("3N", [10_000, 10_000], &[[71, 83, 1], [97, 61, 1]]);
        assert!(counts(&fine).unwrap_err().contains("2,048 plate types"));
    }
}
