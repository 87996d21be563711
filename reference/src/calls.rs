//! The five calls over words: listing, plan test, price test, unfolding and folding.
//!
//! Every call refuses in this order: the job's words (1, then 2), the words of prices or layouts
//! (1, then 2, then 19) or the lengths of unfolding (2), the job row (3, 4), the buffers (5), the
//! model (6 or 7), and then the row of its own input (document 01, "Where each number is given"). Each builds its model afresh, and the
//! old contents of a lent buffer have no influence.

use crate::buffers::{ensure_full, hand_back, Kind, COUNTS, CUTS, OFFCUTS, PLACEMENTS, PLATES};
use crate::folding;
use crate::job::Job;
use crate::layout::{self, Placement};
use crate::layout_lines;
use crate::listing::{Listing, FULL};
use crate::offcut::Lengths;
use crate::plan::{self, Outlay};
use crate::prices::{self, Bound, Prices};
use crate::refusal::Refusal;
use crate::unfolding::{self, Unfolding};

/// The result of the listing: the numbers of residual types and of cuts.
#[derive(Debug, Clone, Copy, PartialEq, Eq)]
pub struct Listed {
    pub residuals: u32,
    pub cuts: u32,
}

/// The result of unfolding: the numbers of boards, of pieces, which are items, and of offcuts.
#[derive(Debug, Clone, Copy, PartialEq, Eq)]
pub struct Unfolded {
    pub boards: u32,
    pub pieces: u32,
    pub offcuts: u32,
}

impl Unfolded {
    /// The numbers of an unfolding.
    pub fn of(unfolding: &Unfolding) -> Unfolded {
        Unfolded {
            boards: unfolding.sizes.len() as u32,
            pieces: unfolding.placements.len() as u32,
            offcuts: unfolding.offcuts.len() as u32,
        }
    }
}

/// Lists the plate types and cuts of a job.
///
/// Refuses with 1 to 4 for the job, 5 for plates or cuts, 6 or 7 for the model. After success
/// plates and cuts hold the listing.
pub fn list(job: &[u16], plates: &mut [u16], cuts: &mut [u16]) -> Result<Listed, Refusal> {
    let sizes = [(PLATES, plates.len()), (CUTS, cuts.len())];
    let answer = || {
        let job = Job::from_words(job)?;
        let listing = model(&job, &sizes)?;
        let listed = Listed {
            residuals: listing.residual_types() as u32,
            cuts: listing.cuts.len() as u32,
        };
        Ok((listed, [listing.plate_words(&job), listing.cut_words()]))
    };
    hand_back(answer(), [plates, cuts])
}

/// Tests a plan and gives the boards that it opens, and their cost.
///
/// Refuses as the listing does, with 5 also for the counts, then with 8, 10, 11 or 12 for the
/// plan. After success plates and cuts hold the listing.
pub fn test_plan(
    job: &[u16],
    counts: &[u16],
    plates: &mut [u16],
    cuts: &mut [u16],
) -> Result<Outlay, Refusal> {
    let sizes = [
        (PLATES, plates.len()),
        (CUTS, cuts.len()),
        (COUNTS, counts.len()),
    ];
    let answer = || {
        let job = Job::from_words(job)?;
        let listing = model(&job, &sizes)?;
        let counts = plan::counts_of_words(&listing, counts)?;
        let outlay = plan::test(&job, &listing, counts)?;
        Ok((outlay, [listing.plate_words(&job), listing.cut_words()]))
    };
    hand_back(answer(), [plates, cuts])
}

/// Tests a price list and gives the bound on the cost of boards.
///
/// Refuses as the listing does, with 2 also for a price word (after the job's own 1 and 2), then
/// with 13 or 14 for the prices. After success plates and cuts hold the listing.
pub fn test_prices(
    job: &[u16],
    prices: &[u16],
    plates: &mut [u16],
    cuts: &mut [u16],
) -> Result<Bound, Refusal> {
    let sizes = [(PLATES, plates.len()), (CUTS, cuts.len())];
    let answer = || {
        let job = Job::from_words(job)?;
        prices::test_words(prices)?;
        let listing = model(&job, &sizes)?;
        let bound = Prices::from_words(prices, &job, &listing)?.test(&job, &listing)?;
        Ok((bound, [listing.plate_words(&job), listing.cut_words()]))
    };
    hand_back(answer(), [plates, cuts])
}

/// Unfolds a plan into placements and offcuts, of which those are marked that reach two lengths,
/// and gives the numbers of boards, pieces and offcuts.
///
/// Refuses as the plan test does, with 2, place 0, also for a length (after the job's own 1 and 2)
/// and with 5 also for placements and offcuts. After success plates and cuts hold the listing,
/// placements nine words for each item and offcuts six for each piece left over.
pub fn unfold(
    job: &[u16],
    counts: &[u16],
    lengths: [u16; 2],
    plates: &mut [u16],
    cuts: &mut [u16],
    placements: &mut [u16],
    offcuts: &mut [u16],
) -> Result<Unfolded, Refusal> {
    let sizes = [
        (PLATES, plates.len()),
        (CUTS, cuts.len()),
        (COUNTS, counts.len()),
        (PLACEMENTS, placements.len()),
        (OFFCUTS, offcuts.len()),
    ];
    let answer = || {
        let job = Job::from_words(job)?;
        let lengths = Lengths::from_words(lengths)?;
        let listing = model(&job, &sizes)?;
        let counts = plan::counts_of_words(&listing, counts)?;
        plan::test(&job, &listing, counts)?;
        let unfolding = unfolding::unfold(&job, &listing, counts);
        let placed = unfolding.placements.iter().flat_map(Placement::words);
        let left_over = unfolding
            .offcuts
            .iter()
            .flat_map(|offcut| offcut.words(lengths));
        let contents = [
            listing.plate_words(&job),
            listing.cut_words(),
            placed.collect(),
            left_over.collect(),
        ];
        Ok((Unfolded::of(&unfolding), contents))
    };
    hand_back(answer(), [plates, cuts, placements, offcuts])
}

/// Folds layouts into counts, and gives the boards and their cost.
///
/// Refuses as the listing does, with 1, 2 and 19 also for the layout words (after the job's own 1
/// and 2) and with 5 for the counts, then with 10, 15, 16, 17, 18 or 11 for the layouts. After
/// success plates and cuts hold the listing and counts one word for each cut.
pub fn fold(
    job: &[u16],
    layouts: &[u16],
    plates: &mut [u16],
    cuts: &mut [u16],
    counts: &mut [u16],
) -> Result<Outlay, Refusal> {
    let sizes = [
        (PLATES, plates.len()),
        (CUTS, cuts.len()),
        (COUNTS, counts.len()),
    ];
    let answer = || {
        let job = Job::from_words(job)?;
        let lines = layout_lines::lines_of_words(layouts, &job)?;
        let listing = model(&job, &sizes)?;
        let set = layout_lines::test(&job, &lines, 1)?;
        let contents = [
            listing.plate_words(&job),
            listing.cut_words(),
            folding::fold(&job, &listing, &set),
        ];
        Ok((layout::outlay(&job, &set), contents))
    };
    hand_back(answer(), [plates, cuts, counts])
}

/// The rows that every call shares after the line row: job, buffers, model.
fn model(job: &Job, sizes: &[(Kind, usize)]) -> Result<Listing, Refusal> {
    job.admit()?;
    ensure_full(sizes)?;
    Listing::walk(job, FULL)
}
