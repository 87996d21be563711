//! Jobs at the limits of document 01, of the blade and of board sizes, and one past them, as they lie in
//! `data/limits/`, with the answers expected.

use super::read::{lines, numbers, Instance};
use super::{job_words_on, NamedJob};
use crate::calls::Listed;
use crate::listing::Limits;
use crate::mode::Mode;
use crate::refusal::Refusal;

/// A job with what the calls answer on it.
#[derive(Debug, Clone, PartialEq, Eq)]
pub struct LimitJob {
    pub job: NamedJob,
    /// The answer of the listing.
    pub listed: Result<Listed, Refusal>,
    /// The boards and pieces of the greedy plan, where the listing is not refused.
    pub plan: Option<[u32; 2]>,
    /// The size that a walk without limits reaches, where the listing is refused.
    pub without_limits: Option<Listed>,
}

/// Limits that no job of `data/limits/` reaches.
pub const NONE: Limits = Limits {
    plate_types: 60_000,
    cuts: 60_000,
};

const TEXTS: [&str; 7] = [
    include_str!("../../../data/limits/plate-types.txt"),
    include_str!("../../../data/limits/cuts.txt"),
    include_str!("../../../data/limits/both.txt"),
    include_str!("../../../data/limits/first-met.txt"),
    include_str!("../../../data/limits/numbers.txt"),
    include_str!("../../../data/limits/blade.txt"),
    include_str!("../../../data/limits/sizes.txt"),
];

/// All jobs at the limits and past them.
pub fn limit_jobs() -> Vec<LimitJob> {
    TEXTS.into_iter().flat_map(read).collect()
}

/// The lines of one job.
#[derive(Default)]
struct Lines {
    instance: Instance,
    /// Width, height and cost of each size.
    sizes: Vec<[u16; 3]>,
    mode: Option<Mode>,
    blade: u16,
    listing: Option<[u32; 2]>,
    plan: Option<[u32; 2]>,
    refusal: Option<[u32; 2]>,
    without: Option<[u32; 2]>,
}

/// Reads a file. It is part of the program, so that a line not of the format ends it.
fn read(text: &str) -> Vec<LimitJob> {
    let mut read: Vec<Lines> = Vec::new();
    for (keyword, rest) in lines(text) {
        if keyword == "job" {
            read.push(Lines::default());
        }
        let last = read.last_mut().expect("the first line begins a job");
        match keyword {
            "job" => last.instance.name = rest.to_string(),
            "mode" => last.mode = Mode::ALL.into_iter().find(|mode| mode.name() == rest),
            "blade" => [last.blade] = numbers(rest),
            "board" => {
                let [width, height, _] = numbers(rest);
                last.sizes.push([width, height, 1]);
            }
            "size" => last.sizes.push(numbers(rest)),
            "item" => last.instance.items.push(numbers(rest)),
            "listing" => last.listing = Some(numbers(rest)),
            "plan" => last.plan = Some(numbers(rest)),
            "refusal" => last.refusal = Some(numbers(rest)),
            "without-limits" => last.without = Some(numbers(rest)),
            _ => panic!("a line begins with {keyword}"),
        }
    }
    read.into_iter().map(Lines::job).collect()
}

impl Lines {
    fn job(self) -> LimitJob {
        let listed = |[residuals, cuts]: [u32; 2]| Listed { residuals, cuts };
        let [number, place] = self.refusal.unwrap_or_default();
        let mode = self.mode.expect("a job has a mode");
        LimitJob {
            job: NamedJob {
                words: job_words_on(&self.instance, &self.sizes, mode, 0, self.blade),
                name: format!("limits {}", self.instance.name),
            },
            listed: self.listing.map(listed).ok_or(Refusal { number, place }),
            plan: self.plan,
            without_limits: self.without.map(listed),
        }
    }
}
