//! What the five calls answer on a job and its inputs.

use super::inputs::Inputs;
use crate::buffers::{COUNTS, CUTS, OFFCUTS, PLACEMENTS, PLATES};
use crate::calls::{fold, list, test_plan, test_prices, unfold, Listed, Unfolded};
use crate::layout::PLACEMENT_NUMBERS;
use crate::offcut::OFFCUT_NUMBERS;
use crate::plan::Outlay;
use crate::prices::Bound;
use crate::refusal::Refusal;

/// The results of the five calls on a job, a plan, a price list and a set of layouts.
#[derive(Debug, Clone, PartialEq, Eq)]
pub struct Outcome {
    pub listed: Listed,
    /// The boards that the plan test counts, and their cost.
    pub outlay: Outlay,
    pub bound: Bound,
    pub unfolded: Unfolded,
    /// The placements and the offcuts that unfolding wrote.
    pub placements: Vec<u16>,
    pub offcuts: Vec<u16>,
    /// The boards of the unfolded plan and their cost, and the counts that folding it gives.
    pub folded: Outlay,
    pub counts: Vec<u16>,
}

/// The lengths with which plans are unfolded: every offcut reaches them.
pub const LENGTHS: [u16; 2] = [1, 1];

/// Runs the five calls: the layouts of the inputs give the plan, which is unfolded, and what
/// unfolding wrote is folded.
pub fn of(job: &[u16], inputs: &Inputs) -> Result<Outcome, Refusal> {
    let [mut plates, mut cuts, mut counts, mut placements, mut offcuts] =
        [PLATES, CUTS, COUNTS, PLACEMENTS, OFFCUTS].map(|kind| vec![0; kind.full_size]);
    let listed = list(job, &mut plates, &mut cuts)?;
    let outlay = test_plan(job, &inputs.counts, &mut plates, &mut cuts)?;
    let bound = test_prices(job, &inputs.prices, &mut plates, &mut cuts)?;
    let unfolded = unfold(
        job,
        &inputs.counts,
        LENGTHS,
        &mut plates,
        &mut cuts,
        &mut placements,
        &mut offcuts,
    )?;
    placements.truncate(PLACEMENT_NUMBERS * unfolded.pieces as usize);
    offcuts.truncate(OFFCUT_NUMBERS * unfolded.offcuts as usize);
    let folded = fold(job, &placements, &mut plates, &mut cuts, &mut counts)?;
    Ok(Outcome {
        listed,
        outlay,
        bound,
        unfolded,
        placements,
        offcuts,
        folded,
        counts,
    })
}
