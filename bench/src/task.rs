//! What is measured: a call on an input, by the engine and by the reference.

use differential::{engine, text_engine};
use inputs::Text;
use reference::buffers::{COUNTS, CUTS, OFFCUTS, PLACEMENTS, PLATES};
use reference::calls;
use reference::instances::outcome::LENGTHS;
use reference::Outlay;
use std::hint::black_box;

#[derive(Clone, Copy, PartialEq, Eq)]
pub enum Call {
    List,
    TestPlan,
    TestPrices,
    Unfold,
    Fold,
    SawText,
    FoldText,
}

impl Call {
    pub const ALL: [Call; 7] = [
        Call::List,
        Call::TestPlan,
        Call::TestPrices,
        Call::Unfold,
        Call::Fold,
        Call::SawText,
        Call::FoldText,
    ];

    pub fn name(self) -> &'static str {
        match self {
            Call::List => "listing",
            Call::TestPlan => "plan test",
            Call::TestPrices => "price test",
            Call::Unfold => "unfolding",
            Call::Fold => "folding",
            Call::SawText => "saw text",
            Call::FoldText => "fold text",
        }
    }
}

#[derive(Clone, Copy, PartialEq, Eq)]
pub enum Side {
    Engine,
    Reference,
}

impl Side {
    pub fn name(self) -> &'static str {
        match self {
            Side::Engine => "engine",
            Side::Reference => "reference",
        }
    }
}

/// The words or the bytes that a call takes: the job and, by the call, counts, prices or layouts; or a text.
#[derive(Default)]
pub struct Input {
    pub job: Vec<u16>,
    pub own: Vec<u16>,
    pub text: Vec<u8>,
}

/// What a call is lent, at full sizes, and the output of a text.
pub struct Lent {
    plates: Vec<u16>,
    cuts: Vec<u16>,
    counts: Vec<u16>,
    placements: Vec<u16>,
    offcuts: Vec<u16>,
    out: Vec<u8>,
}

impl Lent {
    pub fn new() -> Lent {
        let [plates, cuts, counts, placements, offcuts] =
            [PLATES, CUTS, COUNTS, PLACEMENTS, OFFCUTS].map(|kind| vec![0; kind.full_size]);
        Lent {
            plates,
            cuts,
            counts,
            placements,
            offcuts,
            out: vec![0; Text::Saw.longest()],
        }
    }
}

/// The numbers of a call's answer, 0 where there are fewer than four.
pub type Answer = [u32; 4];

/// Does a call once, and gives the numbers of its answer, or the bytes that a text is answered with.
/// Instructions are counted in this function and in those that it calls.
#[inline(never)]
#[no_mangle]
pub fn measured_call(side: Side, call: Call, input: &Input, lent: &mut Lent) -> Answer {
    let answer = match side {
        Side::Engine => by_engine(call, input, lent),
        Side::Reference => by_reference(call, input, lent),
    };
    black_box(answer)
}

fn by_engine(call: Call, input: &Input, lent: &mut Lent) -> Answer {
    let (job, own) = (&input.job[..], &input.own[..]);
    let (plates, cuts) = (&mut lent.plates[..], &mut lent.cuts[..]);
    let [number, first, second] = match call {
        Call::List => engine::list(job, plates, cuts),
        Call::TestPlan => engine::test_plan(job, own, plates, cuts),
        Call::TestPrices => engine::test_prices(job, own, plates, cuts),
        Call::Unfold => {
            let (placements, offcuts) = (&mut lent.placements, &mut lent.offcuts);
            return engine::unfold(job, own, LENGTHS, plates, cuts, placements, offcuts);
        }
        Call::Fold => engine::fold(job, own, plates, cuts, &mut lent.counts),
        Call::SawText => [text_engine::saw(&input.text, &mut lent.out) as u32, 0, 0],
        Call::FoldText => [text_engine::fold(&input.text, &mut lent.out) as u32, 0, 0],
    };
    [number, first, second, 0]
}

fn by_reference(call: Call, input: &Input, lent: &mut Lent) -> Answer {
    let (job, own) = (&input.job[..], &input.own[..]);
    let (plates, cuts) = (&mut lent.plates[..], &mut lent.cuts[..]);
    let answer = match call {
        Call::List => {
            calls::list(job, plates, cuts).map(|listed| [listed.residuals, listed.cuts, 0])
        }
        Call::TestPlan => calls::test_plan(job, own, plates, cuts).map(boards_and_cost),
        Call::TestPrices => {
            calls::test_prices(job, own, plates, cuts).map(|bound| [bound.sum, bound.d, 0])
        }
        Call::Unfold => {
            let (placements, offcuts) = (&mut lent.placements, &mut lent.offcuts);
            calls::unfold(job, own, LENGTHS, plates, cuts, placements, offcuts)
                .map(|unfolded| [unfolded.boards, unfolded.pieces, unfolded.offcuts])
        }
        Call::Fold => calls::fold(job, own, plates, cuts, &mut lent.counts).map(boards_and_cost),
        Call::SawText => return written(reference::saw_text(&input.text)),
        Call::FoldText => return written(reference::fold_text(&input.text)),
    };
    match answer {
        Ok([first, second, third]) => [0, first, second, third],
        Err(refusal) => [refusal.number, refusal.place, 0, 0],
    }
}

/// The values of the plan test and of folding.
fn boards_and_cost(outlay: Outlay) -> [u32; 3] {
    [outlay.boards, outlay.cost, 0]
}

/// The bytes that a text is answered with, as an answer.
fn written(text: Vec<u8>) -> Answer {
    [black_box(text).len() as u32, 0, 0, 0]
}
