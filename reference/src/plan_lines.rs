//! Lines of kind 3, the plan of a text: read, held against the listing, and written (document 01,
//! "Texts"; document 02, One and Five).

use crate::columns::write_line;
use crate::job::Job;
use crate::limits::{COUNT, PLATE_NUMBER, TURN};
use crate::listing::{Cut, Listing};
use crate::plate::Plate;
use crate::position::Position;
use crate::refusal::{ensure, Refusal, CUT_NOT_RISING, NO_SUCH_CUT, OTHER_PLATE_SHOWN};
use crate::text_lines::Line;

/// Numbers of line 3 after its kind: plate, item, count, the plate's width, height and stage, turn.
pub const PLAN_NUMBERS: usize = 7;

/// A line of kind 3 whose plate, item, count and turn are within their limits.
pub struct PlanLine {
    number: usize,
    plate: u16,
    position: Position,
    count: u16,
    /// The plate's width, height and stage as the line shows them, which have no limits of their
    /// own: any numbers of nine columns.
    shown: [u32; 3],
}

impl PlanLine {
    /// A line of kind 3, if its plate, item, count and turn are within their limits, else 2; a type
    /// turned without leave, or a square one turned, is 19.
    pub fn read(line: Line, job: &Job) -> Result<PlanLine, Refusal> {
        let [plate, item, count, width, height, stage, turn, ..] = line.values;
        let within = PLATE_NUMBER.contains(&plate)
            && (1..=job.items.len() as u32).contains(&item)
            && COUNT.contains(&count)
            && TURN.contains(&turn);
        if !within {
            return Err(line.outside_limits());
        }
        let position = Position {
            item: item as u16,
            turned: turn == 1,
        };
        job.ensure_permitted(position, line.number)?;
        Ok(PlanLine {
            number: line.number,
            plate: plate as u16,
            position,
            count: count as u16,
            shown: [width, height, stage],
        })
    }
}

/// The width, height and stage that a line of kind 3 shows for cuts of a plate.
fn shown_of(plate: &Plate) -> [u32; 3] {
    [plate.width, plate.height, plate.stage].map(u32::from)
}

/// The counts of the lines of kind 3. A line that names no cut is 8, over all lines first; then,
/// over all lines, one that shows another width, height or stage than its plate has is 20; then a
/// line whose cut does not come after the last line's is 9.
pub fn counts(listing: &Listing, plan: &[PlanLine]) -> Result<Vec<u16>, Refusal> {
    let mut cuts = Vec::with_capacity(plan.len());
    for line in plan {
        let cut = listing.cut_of(line.plate, line.position);
        cuts.push(cut.ok_or(Refusal::new(NO_SUCH_CUT, line.number))?);
    }
    for line in plan {
        let plate = &listing.plates[usize::from(line.plate)];
        ensure(
            line.shown == shown_of(plate),
            OTHER_PLATE_SHOWN,
            line.number,
        )?;
    }
    for (pair, line) in cuts.windows(2).zip(plan.iter().skip(1)) {
        ensure(pair[0] < pair[1], CUT_NOT_RISING, line.number)?;
    }
    let mut counts = vec![0; listing.cuts.len()];
    for (cut, line) in cuts.into_iter().zip(plan) {
        counts[cut] = line.count;
    }
    Ok(counts)
}

/// Lines of kind 3 for the cuts that are counted, in rising order.
pub fn written(listing: &Listing, counts: &[u16]) -> Vec<u8> {
    let mut out = Vec::new();
    for (cut, &count) in listing.cuts.iter().zip(counts) {
        if count > 0 {
            write_line(&mut out, &line(listing, cut, count));
        }
    }
    out
}

/// The numbers of the line of kind 3 that counts a cut so often, the kind first.
pub fn line(listing: &Listing, cut: &Cut, count: u16) -> [u32; 1 + PLAN_NUMBERS] {
    let [width, height, stage] = shown_of(&listing.plates[usize::from(cut.plate)]);
    let [plate, item, count, turn] =
        [cut.plate, cut.position.item, count, cut.position.turn()].map(u32::from);
    [3, plate, item, count, width, height, stage, turn]
}
