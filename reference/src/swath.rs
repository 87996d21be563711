//! The swath of the blade, cut by cut (document 02, Four).

use crate::job::Job;
use crate::plate::Plate;
use crate::position::Sides;

/// The area that the blade takes where the item is cut from the plate: as wide as the blade, or as
/// what remains of the plate if that is less, along each line that divides the plate. What of it
/// lies inside a trim, above the item at stage 2 in two-stage modes and beside it at stage 3, is
/// waste. The item must be one that the plate admits.
pub fn swath(job: &Job, plate: &Plate, item: Sides) -> u64 {
    let across = u64::from(job.blade.min(plate.width - item.width));
    let upwards = u64::from(job.blade.min(plate.height - item.height));
    let [w, h] = [plate.width, plate.height].map(u64::from);
    let [wi, hi] = [item.width, item.height].map(u64::from);
    match (plate.stage, job.mode.is_two_stage()) {
        (1, _) => w * upwards + across * hi,
        (2, true) => across * hi,
        (2, false) => across * h + wi * upwards,
        _ => wi * upwards,
    }
}
