//! What a call is about: a small random job, or a job of `data/`, which is a published instance or
//! lies at a limit of document 01 or one past it; beside these the job with most offcuts, published
//! instances with a blade, and published instances on all their sizes.

use crate::layouts::random_layouts;
use crate::lengths::{any_lengths, valid_lengths};
use crate::model::Model;
use crate::plans::random_plan;
use crate::prices::random_prices;
use crate::random::Random;
use reference::instances::inputs::Inputs;
use reference::instances::limit_jobs::limit_jobs;
use reference::instances::{jobs, stock_jobs, NamedJob};

pub enum Subject {
    /// A small job, with its listing.
    Small(Model),
    /// The words of a job of `data/`, with a plan, prices and layouts unless its listing is refused.
    Known(Vec<u16>, Option<Inputs>),
}

impl Subject {
    pub fn small(random: &mut Random) -> Subject {
        Subject::Small(Model::random(random))
    }

    fn known(job: NamedJob) -> Subject {
        let inputs = Inputs::of(&job.words).ok();
        Subject::Known(job.words, inputs)
    }

    /// The job's words.
    pub fn job(&self) -> &[u16] {
        match self {
            Subject::Small(model) => &model.words,
            Subject::Known(words, _) => words,
        }
    }

    /// The counts of an accepted plan; any if the listing is refused.
    pub fn counts(&self, random: &mut Random) -> Vec<u16> {
        match self {
            Subject::Small(model) if random.once_in(8) => single_items(model),
            Subject::Small(model) => random_plan(random, model),
            Subject::Known(_, Some(inputs)) => inputs.counts.clone(),
            Subject::Known(_, None) => vec![1; random.below(3)],
        }
    }

    /// Two lengths within their limits.
    pub fn valid_lengths(&self, random: &mut Random) -> [u16; 2] {
        valid_lengths(random, self.board())
    }

    /// Two lengths, some of them outside their limits.
    pub fn any_lengths(&self, random: &mut Random) -> [u16; 2] {
        any_lengths(random, self.board())
    }

    /// The width and height of the first size, or any where there is none.
    fn board(&self) -> [u16; 2] {
        [5, 6].map(|at| self.job().get(at).copied().unwrap_or(1))
    }

    /// The words of accepted prices; any if the listing is refused.
    pub fn prices(&self, random: &mut Random) -> Vec<u16> {
        match self {
            Subject::Small(model) => random_prices(random, model),
            Subject::Known(_, Some(inputs)) => inputs.prices.clone(),
            Subject::Known(_, None) => vec![1; random.below(60)],
        }
    }

    /// The words of layouts that keep the rules and meet the demands; broken ones have an item more
    /// anywhere. Any if the listing is refused.
    pub fn layouts(&self, random: &mut Random, broken: bool) -> Vec<u16> {
        match self {
            Subject::Small(model) => random_layouts(random, &model.job, broken),
            Subject::Known(_, Some(inputs)) => inputs.layouts.clone(),
            Subject::Known(_, None) => [1, 0, 1, 1, 1, 1, 0, 0, 0].repeat(random.below(3)),
        }
    }
}

/// The words of a job, and those of the plan that leaves over most: 4,000 boards of 2 by 2, each cut
/// for one item of 1 by 1, and 8,000 offcuts.
pub fn most_offcuts() -> (Vec<u16>, Inputs) {
    let job = vec![2, 0, 1, 1, 0, 2, 2, 1, 1, 1, 4_000, 0];
    let inputs = Inputs::of_singles(&job).expect("the job is listed");
    (job, inputs)
}

/// The counts that cut each item from a board of its own, the first size and the first of its positions
/// that fit.
fn single_items(model: &Model) -> Vec<u16> {
    let mut counts = vec![0; model.listing.cuts.len()];
    let sizes = 0..model.listing.sizes as u16;
    let on_sizes: Vec<usize> = sizes.flat_map(|size| model.listing.cuts_on(size)).collect();
    for (item, demanded) in (1..).zip(&model.job.items) {
        let of_item = |&&index: &&usize| model.listing.cuts[index].position.item == item;
        let first = on_sizes.iter().find(of_item);
        counts[*first.expect("each item fits some size")] = demanded.demand;
    }
    counts
}

/// Of every seventh published job the same with a blade: of 4, a common one, or the widest.
fn with_blade(published: &[NamedJob]) -> Vec<NamedJob> {
    let with = |(blade, job): (u16, &NamedJob)| {
        let mut words = job.words.clone();
        words[4] = blade;
        NamedJob {
            name: format!("{} with a blade of {blade}", job.name),
            words,
        }
    };
    let blades = [4, 4, 20, 1].into_iter().cycle();
    blades.zip(published.iter().step_by(7)).map(with).collect()
}

/// The jobs of `data/`, published ones, some of them with a blade too and some on all their sizes, and
/// those at the limits, the one with most offcuts among these.
pub struct Known {
    published: Vec<Subject>,
    limits: Vec<Subject>,
}

impl Known {
    /// All that there are.
    pub fn of_data() -> Known {
        let limits = limit_jobs().into_iter().map(|limit| limit.job);
        let (job, inputs) = most_offcuts();
        let most_offcuts = Subject::Known(job, Some(inputs));
        let published = jobs();
        let with_blade = with_blade(&published);
        let on_all_sizes = stock_jobs().into_iter().step_by(3);
        Known {
            published: (published.into_iter().chain(with_blade).chain(on_all_sizes))
                .map(Subject::known)
                .collect(),
            limits: limits.map(Subject::known).chain([most_offcuts]).collect(),
        }
    }

    /// How many there are.
    pub fn count(&self) -> usize {
        self.limits.len() + self.published.len()
    }

    /// The one of a number, the limits first.
    pub fn get(&self, number: usize) -> Option<&Subject> {
        self.limits.iter().chain(&self.published).nth(number)
    }

    /// Now and then some job; those at the limits, which take longer, are rare.
    pub fn pick(&self, random: &mut Random) -> Option<&Subject> {
        if random.once_in(400) {
            Some(&self.limits[random.below(self.limits.len())])
        } else if random.once_in(25) {
            Some(&self.published[random.below(self.published.len())])
        } else {
            None
        }
    }
}
