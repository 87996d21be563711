//! Theorems over the five calls: the answer, and every lent buffer when the call ends.

use crate::antt::{outcome, words, Equation};
use crate::{is_small, Theorem};
use inputs::damage::{damage_job, damage_order, damage_words, Words};
use inputs::layouts::random_layouts;
use inputs::lengths::any_lengths;
use inputs::plans::random_plan;
use inputs::prices::random_prices;
use inputs::{Model, Random};
use reference::buffers::{Kind, COUNTS, CUTS, OFFCUTS, PLACEMENTS, PLATES};
use reference::layout::PLACEMENT_NUMBERS;
use reference::{calls, Outlay, Refusal};

/// The most pieces of an unfolding that the definitions are asked to compute.
const MOST_PLACED: u32 = 40;

#[derive(Clone, Copy, PartialEq, Eq)]
pub enum Call {
    Listing,
    PlanTest,
    PriceTest,
    Unfolding,
    Folding,
}

impl Call {
    fn definition(self) -> &'static str {
        match self {
            Call::Listing => "list_call",
            Call::PlanTest => "plan_call",
            Call::PriceTest => "price_call",
            Call::Unfolding => "unfold_call",
            Call::Folding => "fold_call",
        }
    }

    /// Whether the call is passed counts.
    fn takes_counts(self) -> bool {
        matches!(self, Call::PlanTest | Call::Unfolding)
    }

    /// The full sizes of the buffers that the call is lent: plates, cuts, and those that it is lent
    /// besides.
    fn full_sizes(self) -> Vec<usize> {
        let besides: &[Kind] = match self {
            Call::Unfolding => &[PLACEMENTS, OFFCUTS],
            Call::Folding => &[COUNTS],
            _ => &[],
        };
        let lent = [PLATES, CUTS].iter().chain(besides);
        lent.map(|kind| kind.full_size).collect()
    }
}

/// The job's words, the two lengths of unfolding, the call's own words, and the lent buffers before
/// the call.
struct Input {
    job: Vec<u16>,
    lengths: [u16; 2],
    own: Vec<u16>,
    lent: Vec<Vec<u16>>,
}

impl Input {
    /// The arguments of the call's definition.
    fn arguments(&self, call: Call) -> Vec<String> {
        let mut arguments = vec![words(&self.job)];
        if call == Call::Unfolding {
            arguments.extend(self.lengths.map(|length| length.to_string()));
        }
        let own = (call != Call::Listing).then_some(&self.own);
        arguments.extend(
            own.into_iter()
                .chain(&self.lent)
                .map(|argument| words(argument)),
        );
        arguments
    }
}

/// A theorem over a call on a random input.
pub fn theorem(random: &mut Random, call: Call) -> Theorem {
    loop {
        let input = random_input(random, call);
        let mut lent = input.lent.clone();
        let answer = answer(call, &input, &mut lent);
        let placed = match (call, &answer) {
            (Call::Unfolding, Ok(results)) => results[1],
            _ => 0,
        };
        if placed > MOST_PLACED {
            continue;
        }
        return Theorem {
            equation: Equation {
                definition: call.definition(),
                arguments: input.arguments(call),
                answer: outcome(&answer, &lent),
            },
            refusal: answer.err().map(|refusal| refusal.number),
        };
    }
}

/// An input whose job, own words and buffers may be damaged; a good half is valid.
fn random_input(random: &mut Random, call: Call) -> Input {
    let model = Model::random(random);
    let own_damaged = random.once_in(3);
    let full = call.full_sizes();
    let mut input = Input {
        job: job_words(random, &model, call),
        lengths: any_lengths(random, model.first_sides()),
        own: own_words(random, call, &model, own_damaged),
        lent: full.iter().map(|&size| vec![0; size]).collect(),
    };
    // An input that is refused before its buffers are looked at needs no large ones.
    let refusal = answer(call, &input, &mut input.lent.clone()).err();
    let small = refusal.is_some_and(|refusal| refusal.number < 5) && !random.once_in(8);
    let short = random.once_in(8).then(|| random.below(5));
    for (index, &size) in full.iter().enumerate() {
        input.lent[index] = random_buffer(random, size, small || short == Some(index));
    }
    if call.takes_counts() && (small || short == Some(4)) {
        let length = random.pick(&[0, 3, COUNTS.full_size - 1]);
        input.own.truncate(length);
    }
    input
}

/// The words of the model's job, or damaged ones, of which the listing is small if there is one.
fn job_words(random: &mut Random, model: &Model, call: Call) -> Vec<u16> {
    let mut job = model.words.clone();
    let damaged = random.once_in(if call == Call::Listing { 3 } else { 8 });
    while damaged && (job == model.words || !is_small(&job)) {
        job.clone_from(&model.words);
        damage_job(random, &mut job);
    }
    job
}

/// A buffer before the call: of full size, a little longer, or shorter; its words are arbitrary.
fn random_buffer(random: &mut Random, full: usize, short: bool) -> Vec<u16> {
    let length = match short {
        true => random.pick(&[0, 1, 5, 5, 5, full - 1]),
        false => full + random.pick(&[0, 0, 0, 1, 9]),
    };
    let mut buffer = vec![random.pick(&[0, 1, 7, 65_535]); length];
    let different = random.below(6);
    for word in buffer.iter_mut().take(different) {
        *word = random.between(0, 40);
    }
    buffer
}

/// Counts, prices or layouts, damaged or not.
fn own_words(random: &mut Random, call: Call, model: &Model, damaged: bool) -> Vec<u16> {
    match call {
        Call::Listing => Vec::new(),
        Call::PlanTest | Call::Unfolding => count_words(random, model, damaged),
        Call::PriceTest => {
            let mut prices = random_prices(random, model);
            if damaged {
                damage_words(random, &mut prices, Words::Prices);
            }
            prices
        }
        Call::Folding => layout_words(random, model, damaged),
    }
}

/// The words of a plan, of full size or a little longer.
fn count_words(random: &mut Random, model: &Model, damaged: bool) -> Vec<u16> {
    let mut counts = random_plan(random, model);
    let damages = if damaged { 1 + random.below(2) } else { 0 };
    for _ in 0..damages {
        damage_words(random, &mut counts, Words::Counts);
    }
    counts.resize(COUNTS.full_size + random.pick(&[0, 0, 0, 2]), 0);
    if damaged && random.once_in(8) {
        *counts.last_mut().expect("the words are of full size") = 1;
    }
    counts
}

/// The words of layouts; damaged ones break the rules, the order of lines, or single words.
fn layout_words(random: &mut Random, model: &Model, damaged: bool) -> Vec<u16> {
    let how = if damaged { random.below(16) } else { 16 };
    let mut layouts = random_layouts(random, &model.job, how < 6);
    match how {
        6 | 7 => {
            let mut lines: Vec<_> = layouts
                .chunks(PLACEMENT_NUMBERS)
                .map(<[u16]>::to_vec)
                .collect();
            damage_order(random, &mut lines);
            layouts = lines.concat();
        }
        8 => layouts = [1, 0, 1, 1, 1, 1, 0, 0, 0].repeat(random.pick(&[0, 4_000, 4_001])),
        9..=15 => damage_words(random, &mut layouts, Words::Layouts),
        _ => {}
    }
    layouts
}

/// The results of the plan test and of folding: boards, and their cost.
fn given(outlay: Outlay) -> Vec<u32> {
    vec![outlay.boards, outlay.cost]
}

/// The reference's answer; the buffers are lent to it.
fn answer(call: Call, input: &Input, lent: &mut [Vec<u16>]) -> Result<Vec<u32>, Refusal> {
    let (job, own) = (&input.job, &input.own);
    match (call, lent) {
        (Call::Listing, [plates, cuts]) => {
            calls::list(job, plates, cuts).map(|listed| vec![listed.residuals, listed.cuts])
        }
        (Call::PlanTest, [plates, cuts]) => calls::test_plan(job, own, plates, cuts).map(given),
        (Call::PriceTest, [plates, cuts]) => {
            calls::test_prices(job, own, plates, cuts).map(|bound| vec![bound.sum, bound.d])
        }
        (Call::Unfolding, [plates, cuts, placements, offcuts]) => {
            calls::unfold(job, own, input.lengths, plates, cuts, placements, offcuts)
                .map(|unfolded| vec![unfolded.boards, unfolded.pieces, unfolded.offcuts])
        }
        (Call::Folding, [plates, cuts, counts]) => {
            calls::fold(job, own, plates, cuts, counts).map(given)
        }
        _ => unreachable!("each call is lent its buffers"),
    }
}
