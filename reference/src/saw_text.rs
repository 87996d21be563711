//! The saw text: job, plan and prices as lines, answered by placements and a bound (document 01,
//! "Texts"; document 02, Five and Six).

use crate::columns::{refusal_text, write_line};
use crate::job::Job;
use crate::limits::{DENOMINATOR, ITEM_TYPES, PRICE, RESIDUAL_TYPES};
use crate::listing::{Listing, FULL};
use crate::plan::{self, Outlay};
use crate::plan_lines::{self, PlanLine};
use crate::prices::{Bound, Prices};
use crate::refusal::Refusal;
use crate::text_lines::{Line, Lines};
use crate::unfolding::{unfold, Unfolding};

/// Answers a saw text: lines of kind 7 and one of kind 8, or one line of kind 9 alone.
pub fn saw_text(text: &[u8]) -> Vec<u8> {
    match answer(text) {
        Ok(output) => output,
        Err(refusal) => refusal_text(refusal),
    }
}

/// What a saw text says: kinds 1, 10 and 2, kind 3, and kinds 4 to 6 if they are there.
struct SawText {
    job: Job,
    plan: Vec<PlanLine>,
    prices: Option<Prices>,
}

/// The rows from the line row to the prices row, and the output where none refuses.
fn answer(text: &[u8]) -> Result<Vec<u8>, Refusal> {
    let SawText { job, plan, prices } = read(text)?;
    job.admit()?;
    let listing = Listing::walk(&job, FULL)?;
    let counts = plan_lines::counts(&listing, &plan)?;
    let outlay = plan::test(&job, &listing, &counts)?;
    let bound = match prices {
        Some(prices) => prices.test(&job, &listing)?,
        None => Bound::NONE,
    };
    let unfolding = unfold(&job, &listing, &counts);
    Ok(output(&unfolding, outlay, bound))
}

/// The line row: kinds 1, 10 and 2, any number of kind 3, and then nothing or kinds 4, 5 and 6.
fn read(text: &[u8]) -> Result<SawText, Refusal> {
    let mut lines = Lines::new(text);
    let job = lines.job()?;
    let mut plan = Vec::new();
    let mut prices = None;
    while !lines.is_at_end() {
        let line = lines.line()?;
        match line.kind {
            3 if prices.is_none() => plan.push(PlanLine::read(line, &job)?),
            4 if prices.is_none() => prices = Some(read_prices(&mut lines, line, &job)?),
            _ => return Err(line.out_of_order()),
        }
    }
    Ok(SawText { job, plan, prices })
}

/// The prices that a line of kind 4 announces: as many lines of kinds 5 and 6 as it says,
/// whether or not that is the model's number. Item types are numbered from 1, residual types as
/// plate types are, after the sizes.
fn read_prices(lines: &mut Lines, head: Line, job: &Job) -> Result<Prices, Refusal> {
    let [denominator, types, residual_types, ..] = head.values;
    let within = DENOMINATOR.contains(&denominator)
        && ITEM_TYPES.contains(&types)
        && RESIDUAL_TYPES.contains(&residual_types);
    if !within {
        return Err(head.outside_limits());
    }
    Ok(Prices {
        denominator: denominator as u16,
        items: read_price_lines(lines, 5, 1, types)?,
        residuals: read_price_lines(lines, 6, job.sizes.len() as u32, residual_types)?,
    })
}

/// The prices of so many lines of one kind, numbered from the first.
fn read_price_lines(
    lines: &mut Lines,
    kind: u32,
    first: u32,
    many: u32,
) -> Result<Vec<u16>, Refusal> {
    let mut prices = Vec::with_capacity(many as usize);
    for running in first..first + many {
        let line = lines.running_line(kind, running)?;
        let price = line.values[1];
        if !PRICE.contains(&price) {
            return Err(line.outside_limits());
        }
        prices.push(price as u16);
    }
    Ok(prices)
}

/// Lines of kind 7, one for each item, and the line of kind 8.
fn output(unfolding: &Unfolding, outlay: Outlay, bound: Bound) -> Vec<u8> {
    let mut out = Vec::new();
    for placement in &unfolding.placements {
        let numbers = placement.words().map(u32::from);
        write_line(&mut out, &[&[7], &numbers[..]].concat());
    }
    let cheapest = u32::from(bound.is_cheapest(outlay.cost));
    write_line(&mut out, &[8, outlay.cost, bound.sum, bound.d, cheapest]);
    out
}
