//! Waste, cut by cut (document 02, Two).

use crate::job::Job;
use crate::mode::Mode;
use crate::plate::Plate;
use crate::position::Sides;

/// The area that cutting the item from the plate wastes: the residuals that are not kept, and what
/// is trimmed off, the part of the blade's swath inside it included. The item must be one that the plate admits.
pub fn waste(job: &Job, plate: &Plate, item: Sides) -> u64 {
    let left = plate.residuals(job.mode, job.blade, item);
    let residuals = left.top.into_iter().chain(left.right);
    let not_kept = residuals.filter(|residual| !job.keeps(residual));
    not_kept.map(|residual| residual.area()).sum::<u64>() + trim(job.mode, plate, item)
}

/// What is trimmed off, w and h being the plate's sides: at stage 2 in two-stage modes w times
/// what the item is lower, at stage 3 what the item is narrower times h.
fn trim(mode: Mode, plate: &Plate, item: Sides) -> u64 {
    let [w, h] = [plate.width, plate.height].map(u64::from);
    match (plate.stage, mode.is_two_stage()) {
        (2, true) => w * (h - u64::from(item.height)),
        (3, _) => (w - u64::from(item.width)) * h,
        _ => 0,
    }
}
