//! With one size at a cost of 1 a job is what it was before there were sizes (document 02, Six): on
//! every such job of `data/`, and on every fifth of them with a blade of 4 too, without leave and with
//! leave for all types, listing, plans, prices, bounds, layouts and offcuts are those of request Five,
//! but for the cost of a plate, the size of a placement, and the cost of boards, which is their number.

use crate::base::Checksum;
use reference::instances::all_jobs;
use reference::instances::inputs::Inputs;
use reference::instances::outcome;

/// What request Five's reference answers on these jobs, in one number.
const FIVE: u64 = 0x7B53_3FA2_E3D9_F75A;

/// The plates without their cost, which is 1 for the size and 0 for residual types.
fn without_costs(plates: &[u16]) -> Vec<u16> {
    let record = |(number, plate): (usize, &[u16])| {
        let is_size = number == 0 && plate[2] == 1;
        assert_eq!(plate[3], u16::from(is_size));
        plate[..3].to_vec()
    };
    plates.chunks(4).enumerate().flat_map(record).collect()
}

/// The placements without the size.
fn without_sizes(placements: &[u16]) -> Vec<u16> {
    let line = |line: &[u16]| {
        assert_eq!(line[1], 0);
        [&line[..1], &line[2..]].concat()
    };
    placements.chunks(9).flat_map(line).collect()
}

/// Adds what the calls answer on a job.
fn add(sum: &mut Checksum, job: &[u16]) {
    let [mut plates, mut cuts] = [vec![0; 8_192], vec![0; 32_768]];
    match reference::list(job, &mut plates, &mut cuts) {
        Ok(listed) => sum.add([listed.residuals, listed.cuts]),
        Err(refusal) => sum.add([refusal.number, refusal.place]),
    }
    sum.add_words(&without_costs(&plates));
    sum.add_words(&cuts);
    let Ok(inputs) = Inputs::of(job) else {
        return;
    };
    let found = outcome::of(job, &inputs).unwrap();
    sum.add_words(&inputs.counts);
    sum.add_words(&inputs.prices);
    sum.add_words(&without_sizes(&inputs.layouts));
    for outlay in [found.outlay, found.folded] {
        assert_eq!(outlay.cost, outlay.boards);
        sum.add([outlay.boards]);
    }
    let unfolded = found.unfolded;
    sum.add([found.bound.sum, found.bound.d]);
    sum.add([unfolded.boards, unfolded.pieces, unfolded.offcuts]);
    sum.add_words(&without_sizes(&found.placements));
    sum.add_words(&found.offcuts);
    sum.add_words(&found.counts);
}

#[test]
fn with_one_size_at_a_cost_of_1_every_job_is_answered_as_by_request_five() {
    let mut sum = Checksum::new();
    let one_size = |job: &Vec<u16>| job[2] == 1 && job[7] == 1;
    let jobs = all_jobs().into_iter().map(|job| job.words);
    for (number, mut job) in jobs.filter(one_size).enumerate() {
        add(&mut sum, &job);
        if number % 5 == 0 {
            job[4] = 4;
            add(&mut sum, &job);
            job[8..].chunks_mut(4).for_each(|item| item[3] = 1);
            add(&mut sum, &job);
        }
    }
    assert_eq!(sum.0, FIVE, "{:#x}", sum.0);
}
