//! Plans: the test of a count for each cut (document 01, "Plan"; document 02, Six).

use crate::job::Job;
use crate::limits::MOST_PIECES;
use crate::listing::Listing;
use crate::refusal::{
    ensure, Refusal, NO_SUCH_CUT, PLATE_TYPE_OVERDRAWN, TOTAL_TOO_HIGH, TYPE_SHORT,
};

/// What a plan or a set of layouts takes from stock: its boards, and the sum of their costs.
#[derive(Debug, Clone, Copy, PartialEq, Eq)]
pub struct Outlay {
    pub boards: u32,
    pub cost: u32,
}

impl Outlay {
    /// The outlay for so many boards of each size.
    pub fn of(job: &Job, boards: &[u32]) -> Outlay {
        let costs = job.sizes.iter().map(|size| u32::from(size.cost));
        Outlay {
            boards: boards.iter().sum(),
            cost: boards
                .iter()
                .zip(costs)
                .map(|(many, cost)| many * cost)
                .sum(),
        }
    }
}

/// The counts of the listing's cuts among count words. A nonzero word past the last cut is 8,
/// naming the cut that it would count.
pub fn counts_of_words<'a>(listing: &Listing, words: &'a [u16]) -> Result<&'a [u16], Refusal> {
    let (counts, past) = words.split_at(listing.cuts.len());
    match past.iter().position(|&count| count != 0) {
        Some(index) => Err(Refusal::new(NO_SUCH_CUT, counts.len() + index + 1)),
        None => Ok(counts),
    }
}

/// Tests a plan, one count for each cut, and gives what it takes from stock: of each size as many
/// boards as there are counts on it.
/// A total above 4,000 is 10; an item type cut less often than demanded, in
/// both turns together, is 11; a residual type
/// cut more often than it arises is 12.
pub fn test(job: &Job, listing: &Listing, counts: &[u16]) -> Result<Outlay, Refusal> {
    let mut total = 0;
    let mut obtained = vec![0; job.items.len() + 1];
    let mut drawn = vec![0; listing.plates.len()];
    let mut arisen = vec![0; listing.plates.len()];
    for (cut, &count) in listing.cuts.iter().zip(counts) {
        let count = u32::from(count);
        total += count;
        obtained[usize::from(cut.position.item)] += count;
        drawn[usize::from(cut.plate)] += count;
        for residual in cut.top.into_iter().chain(cut.right) {
            arisen[usize::from(residual)] += count;
        }
    }
    ensure(total <= MOST_PIECES, TOTAL_TOO_HIGH, 0)?;
    ensure_demands(job, &obtained)?;
    for plate in listing.sizes..listing.plates.len() {
        ensure(drawn[plate] <= arisen[plate], PLATE_TYPE_OVERDRAWN, plate)?;
    }
    Ok(Outlay::of(job, &drawn[..listing.sizes]))
}

/// Refuses with 11 the lowest item type obtained less often than demanded. The numbers obtained
/// stand by item type, so that entry 0 has no meaning.
pub fn ensure_demands(job: &Job, obtained: &[u32]) -> Result<(), Refusal> {
    for (number, item) in (1..).zip(&job.items) {
        let reached = obtained[number] >= u32::from(item.demand);
        ensure(reached, TYPE_SHORT, number)?;
    }
    Ok(())
}
