//! The inputs of the measurements, by name: jobs of `data/`, one of them with a blade too and one of six
//! sizes, the job with most offcuts, and texts at the limits.

use crate::task::{Call, Input};
use inputs::longest::{long_texts, longest, of_job};
use inputs::subjects::most_offcuts;
use inputs::Text;
use reference::instances::all_jobs;
use reference::instances::inputs::Inputs;
use reference::instances::limit_jobs::limit_jobs;
use reference::job::{Job, HEAD_NUMBERS};
use reference::listing::{Listing, FULL};

/// The greatest listings, in each mode: 2,047 residual types and 8,192 cuts.
pub const GREATEST: [&str; 4] = [
    "limits both 2E",
    "limits both 2N",
    "limits both 3E",
    "limits both 3N",
];

/// 4,000 pieces: on boards of their own, in strips of 2,000 stacks, in boards of 2,000 strips, in stacks of 999.
pub const PIECES: [&str; 4] = [
    "limits numbers 2N largest item",
    "limits numbers 2N stacks",
    "limits numbers 3N strips",
    "limits numbers 3N places",
];

/// 4,000 boards, each cut for one item, with two pieces left over.
pub const OFFCUTS: &str = "8,000 offcuts";

/// A great listing with a common blade: 1,813 residual types and 7,501 cuts.
pub const BLADE: &str = "limits both 3N, a blade of 4";

/// A great listing on six sizes: 2,042 residual types and 8,166 cuts.
pub const SIZES: &str = "limits sizes 3N 2,048 plate types";

/// What stands between the name of a job of `data/` and a blade.
const WITH_BLADE: &str = ", a blade of ";

/// The longest texts.
pub const LINES: &str = "99,999 lines";
/// The longest price list.
pub const PRICES: &str = "2,087 prices";
/// Texts with 4,000 lines of kind 3, each of which shows its plate.
pub const CUTS: &str = "4,000 cuts counted";

/// The input of a call, by the input's name.
pub fn input(call: Call, name: &str) -> Input {
    let kind = match call {
        Call::SawText => Text::Saw,
        Call::FoldText => Text::Fold,
        _ if name == OFFCUTS => return words(call, most_offcuts()),
        _ => return words(call, with_inputs(job(name))),
    };
    let text = match name {
        LINES => longest(kind),
        PRICES | CUTS => {
            let mut long = long_texts(kind).into_iter();
            long.find(|long| long.name == name)
                .expect("a long text")
                .text
        }
        _ => of_job(kind, name, &job(name)).text,
    };
    Input {
        text,
        ..Input::default()
    }
}

/// A job with its plan, prices and layouts.
fn with_inputs(job: Vec<u16>) -> (Vec<u16>, Inputs) {
    let inputs = Inputs::of(&job).expect("the listing is not refused");
    (job, inputs)
}

/// The words of a call on a job.
fn words(call: Call, (job, inputs): (Vec<u16>, Inputs)) -> Input {
    Input {
        job,
        own: match call {
            Call::TestPlan | Call::Unfold => inputs.counts,
            Call::TestPrices => inputs.prices,
            Call::Fold => inputs.layouts,
            _ => Vec::new(),
        },
        text: Vec::new(),
    }
}

/// The words of a job of `data/`, with the blade that its name may end with.
fn job(name: &str) -> Vec<u16> {
    if let Some((name, blade)) = name.split_once(WITH_BLADE) {
        let mut words = job(name);
        words[HEAD_NUMBERS - 1] = blade.parse().expect("the width of a blade");
        return words;
    }
    let limits = limit_jobs().into_iter().map(|limit| limit.job);
    let found = limits.chain(all_jobs()).find(|job| job.name == name);
    found.expect("a job of data/").words
}

/// A job with the size of its listing.
pub struct Sized {
    pub name: String,
    pub plate_types: usize,
    pub cuts: usize,
}

/// For each number of cuts the job of `data/` whose listing has nearest to so many.
pub fn by_cuts(numbers: &[usize]) -> Vec<Sized> {
    let listed = all_jobs().into_iter().filter_map(|named| {
        let job = Job::from_words(&named.words).ok()?;
        job.admit().ok()?;
        let listing = Listing::walk(&job, FULL).ok()?;
        Some(Sized {
            name: named.name,
            plate_types: listing.plates.len(),
            cuts: listing.cuts.len(),
        })
    });
    let mut listed: Vec<Sized> = listed.collect();
    let mut nearest = |&number: &usize| {
        let distance = |at: &usize| listed[*at].cuts.abs_diff(number);
        let at = (0..listed.len()).min_by_key(distance).expect("some job");
        listed.swap_remove(at)
    };
    numbers.iter().map(&mut nearest).collect()
}
