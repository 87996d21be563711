//! Jobs that are too large for the saw: how large they are in each mode, which item types make them so,
//! and how to part them into jobs that the saw takes.

mod report;

use crate::first;
use crate::job::{Job, MODES, MOST_PIECES};
use crate::listing::{to_walk, Listing};
use crate::plan;
use reference::listing::{Limits, FULL};
use reference::refusal::DEMANDS_TOO_HIGH;
pub use report::report;
use std::cmp::Reverse;

/// How far a walk past the saw's limits is followed.
const FAR: Limits = Limits {
    plate_types: 20_000,
    cuts: 200_000,
};

/// How many plate types and cuts a job has, unless they are too many to be counted.
pub type Extent = Option<[usize; 2]>;

/// A job parted by item types: those of each part, rising.
pub type Parts = Vec<Vec<usize>>;

/// The job in a mode: its extent, the number with which the saw refuses it, the parts that the saw takes,
/// if there are such, and what first plans for them cost together.
#[derive(Debug, Clone, PartialEq, Eq)]
pub struct InMode {
    pub job: Job,
    pub extent: Extent,
    pub refusal: Option<u32>,
    pub parts: Option<Parts>,
    pub cost: Option<usize>,
}

/// The plate types and cuts of a job, however many the saw takes.
pub fn extent(job: &Job) -> Extent {
    let walked = reference::Listing::walk(&to_walk(job), FAR).ok()?;
    Some([walked.plates.len(), walked.cuts.len()])
}

/// The number with which the saw refuses a job whose items fit: its demands or its listing pass a limit.
pub fn refusal(job: &Job) -> Option<u32> {
    match job.demands() > MOST_PIECES {
        true => Some(DEMANDS_TOO_HIGH),
        false => {
            let walked = reference::Listing::walk(&to_walk(job), FULL);
            walked.err().map(|refusal| refusal.number)
        }
    }
}

/// The job with these item types alone, in this order.
pub fn part(job: &Job, types: &[usize]) -> Job {
    let named = !job.names.is_empty();
    Job {
        items: types.iter().map(|&item_type| job.item(item_type)).collect(),
        names: match named {
            true => types
                .iter()
                .map(|&item_type| job.name(item_type).to_string())
                .collect(),
            false => Vec::new(),
        },
        ..job.clone()
    }
}

impl InMode {
    /// The job in its own mode.
    pub fn of(job: Job) -> InMode {
        let parts = parts(&job);
        InMode {
            extent: extent(&job),
            refusal: refusal(&job),
            cost: parts.as_ref().map(|parts| cost(&job, parts)),
            parts,
            job,
        }
    }
}

/// The job in each mode.
pub fn in_modes(job: &Job) -> Vec<InMode> {
    let in_mode = |(_, stages, exact)| {
        InMode::of(Job {
            stages,
            exact,
            ..job.clone()
        })
    };
    MODES.map(in_mode).to_vec()
}

/// The job without leave to turn, if it has some and its items fit without.
pub fn unturned(job: &Job) -> Option<Job> {
    let mut without = job.clone();
    for item in &mut without.items {
        item.leave = false;
    }
    let fits = (1..=job.items.len()).all(|item_type| without.fits(item_type));
    (without != *job && fits).then_some(without)
}

/// Parts that the saw takes, as few as several orders of the item types give, and of these the ones whose
/// first plans cost least; none if an item type alone is too large.
pub fn parts(job: &Job) -> Option<Parts> {
    let all: Vec<usize> = (1..=job.items.len()).collect();
    if refusal(job).is_none() {
        return Some(vec![all]);
    }
    let by = |key: fn(&Job, usize) -> [usize; 2]| {
        let mut order = all.clone();
        order.sort_by_key(|&item_type| Reverse(key(job, item_type)));
        order
    };
    let orders = [
        by(|job, item_type| [job.item(item_type).height, job.item(item_type).width]),
        by(|job, item_type| [job.item(item_type).width, job.item(item_type).height]),
        by(|job, item_type| [job.item(item_type).width * job.item(item_type).height, 0]),
        by(|job, item_type| extent(&part(job, &[item_type])).unwrap_or([usize::MAX; 2])),
    ];
    let found = orders.iter().filter_map(|order| in_order(job, order));
    found.min_by_key(|parts| (parts.len(), cost(job, parts)))
}

/// Each item type in its turn goes to the first part that the saw still takes with it, or begins a new
/// one.
fn in_order(job: &Job, order: &[usize]) -> Option<Parts> {
    let mut parts: Parts = Vec::new();
    for &item_type in order {
        let with = |types: &[usize]| {
            let mut types = types.to_vec();
            types.push(item_type);
            types.sort_unstable();
            refusal(&part(job, &types)).is_none().then_some(types)
        };
        let mut there = parts.iter().enumerate();
        let fits = there.find_map(|(place, types)| Some((place, with(types)?)));
        match fits {
            Some((place, types)) => parts[place] = types,
            None => parts.push(with(&[])?),
        }
    }
    Some(parts)
}

/// What first plans for the parts cost together.
pub fn cost(job: &Job, parts: &Parts) -> usize {
    let of_part = |types: &Vec<usize>| first_cost(&part(job, types)).unwrap_or(0);
    parts.iter().map(of_part).sum()
}

/// What a first plan for a job costs, if the saw takes the job.
pub fn first_cost(job: &Job) -> Option<usize> {
    let listing = Listing::of(job).ok()?;
    let counts = first::counts(job).ok()?;
    Some(plan::cost(job, &listing, &counts))
}

#[cfg(test)]
mod tests;
