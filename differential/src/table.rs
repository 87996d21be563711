//! The calls: for each its own words, the buffers that it is lent, the refusal numbers that it can
//! give, its largest values, and itself in the engine and in the reference.

use crate::lent::MARGIN;
use crate::own::Own;
use differential::engine;
use reference::buffers::{Kind, COUNTS, CUTS, OFFCUTS, PLACEMENTS, PLATES};
use reference::{calls, Outlay, Refusal};

/// The job's words, the call's own words, the two lengths of unfolding, and the lent buffers.
pub struct Input {
    pub job: Vec<u16>,
    pub own: Vec<u16>,
    pub lengths: [u16; 2],
    pub lent: Vec<Vec<u16>>,
}

/// The words that a call leaves in `answer`.
pub type Answer = Vec<u32>;

/// A call, on the words of an input; the buffers are lent to it.
type Function = fn(&Input, &mut [Vec<u16>]) -> Answer;

pub struct Call {
    pub name: &'static str,
    pub own: Own,
    pub lent: &'static [Kind],
    pub refusals: &'static [u32],
    pub largest: &'static [u32],
    pub engine: Function,
    pub reference: Function,
}

pub const CALLS: [Call; 5] = [
    Call {
        name: "saw_list",
        own: Own::Nothing,
        lent: &[PLATES, CUTS],
        refusals: &[1, 2, 3, 4, 5, 6, 7],
        largest: &[2_047, 8_192],
        engine: |input, lent| {
            let [plates, cuts] = lent_to(lent);
            engine::list(&input.job, plates, cuts).to_vec()
        },
        reference: |input, lent| {
            let [plates, cuts] = lent_to(lent);
            words(
                calls::list(&input.job, plates, cuts).map(|listed| [listed.residuals, listed.cuts]),
            )
        },
    },
    Call {
        name: "saw_test_plan",
        own: Own::Counts,
        lent: &[PLATES, CUTS],
        refusals: &[1, 2, 3, 4, 5, 6, 7, 8, 10, 11, 12],
        largest: &[4_000, 3_996_000],
        engine: |input, lent| {
            let [plates, cuts] = lent_to(lent);
            engine::test_plan(&input.job, &input.own, plates, cuts).to_vec()
        },
        reference: |input, lent| {
            let [plates, cuts] = lent_to(lent);
            words(calls::test_plan(&input.job, &input.own, plates, cuts).map(boards_and_cost))
        },
    },
    Call {
        name: "saw_test_prices",
        own: Own::Prices,
        lent: &[PLATES, CUTS],
        refusals: &[1, 2, 3, 4, 5, 6, 7, 13, 14],
        largest: &[39_996_000, 9_999],
        engine: |input, lent| {
            let [plates, cuts] = lent_to(lent);
            engine::test_prices(&input.job, &input.own, plates, cuts).to_vec()
        },
        reference: |input, lent| {
            let [plates, cuts] = lent_to(lent);
            words(
                calls::test_prices(&input.job, &input.own, plates, cuts)
                    .map(|bound| [bound.sum, bound.d]),
            )
        },
    },
    Call {
        name: "saw_unfold",
        own: Own::Counts,
        lent: &[PLATES, CUTS, PLACEMENTS, OFFCUTS],
        refusals: &[1, 2, 3, 4, 5, 6, 7, 8, 10, 11, 12],
        largest: &[4_000, 4_000, 8_000],
        engine: |input, lent| {
            let [plates, cuts, placements, offcuts] = lent_to(lent);
            let Input {
                job, own, lengths, ..
            } = input;
            engine::unfold(job, own, *lengths, plates, cuts, placements, offcuts).to_vec()
        },
        reference: |input, lent| {
            let [plates, cuts, placements, offcuts] = lent_to(lent);
            let Input {
                job, own, lengths, ..
            } = input;
            let answer = calls::unfold(job, own, *lengths, plates, cuts, placements, offcuts);
            words(answer.map(|unfolded| [unfolded.boards, unfolded.pieces, unfolded.offcuts]))
        },
    },
    Call {
        name: "saw_fold",
        own: Own::Layouts,
        lent: &[PLATES, CUTS, COUNTS],
        refusals: &[1, 2, 3, 4, 5, 6, 7, 10, 11, 15, 16, 17, 18, 19],
        largest: &[4_000, 3_996_000],
        engine: |input, lent| {
            let [plates, cuts, counts] = lent_to(lent);
            engine::fold(&input.job, &input.own, plates, cuts, counts).to_vec()
        },
        reference: |input, lent| {
            let [plates, cuts, counts] = lent_to(lent);
            words(calls::fold(&input.job, &input.own, plates, cuts, counts).map(boards_and_cost))
        },
    },
];

/// The buffers that a call is lent, one by one, without their margins.
fn lent_to<const N: usize>(lent: &mut [Vec<u16>]) -> [&mut [u16]; N] {
    let mut buffers = (lent.iter_mut()).map(|lent| {
        let end = lent.len() - MARGIN;
        &mut lent[MARGIN..end]
    });
    std::array::from_fn(|_| buffers.next().expect("each call is lent its buffers"))
}

/// The values of the plan test and of folding.
fn boards_and_cost(outlay: Outlay) -> [u32; 2] {
    [outlay.boards, outlay.cost]
}

/// An answer of the reference as words: 0 and its values, or the refusal, its place, and 0 in the rest.
fn words<const N: usize>(answer: Result<[u32; N], Refusal>) -> Answer {
    let (number, values) = match answer {
        Ok(values) => (0, values.to_vec()),
        Err(Refusal { number, place }) => (number, [&[place], &[0; N][1..]].concat()),
    };
    [vec![number], values].concat()
}
