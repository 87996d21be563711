//! What becomes of the boards' area in the plans of the published instances (document 02, Two and
//! Four): items, offcuts, waste and the blade's swath.

use super::inputs::Inputs;
use super::read::Instance;
use super::{job_words, Source};
use crate::balance::{of_boards, Balance};
use crate::job::Job;
use crate::listing::{Listing, FULL};
use crate::mode::Mode;
use crate::refusal::Refusal;
use crate::unfolding::unfold;
use std::fmt::Write;

const HEAD: &str = "
## Items, offcuts and waste

Of the area of all boards that the plans of a table open, in each mode over the jobs listed in it: the per cent that is items, offcuts, waste. An offcut is a piece
left over from which some item of the job can still be cut, and waste is the rest. The plans are those of the tables above: strips filled, highest items first.

| table | 2E | 2N | 3E | 3N |
|---|---|---|---|---|
";

/// A line for each table.
pub fn section(sources: &[&Source]) -> String {
    let mut text = HEAD.to_string();
    for source in sources {
        let cells = Mode::ALL.map(|mode| cell(&of_table(source, mode, job_words), 3));
        writeln!(text, "| {} | {} |", source.title, cells.join(" | "))
            .expect("a string takes all text");
    }
    text
}

/// The areas of a table's plans in a mode, for the jobs that the words of an instance on a board
/// give.
pub fn of_table(
    source: &Source,
    mode: Mode,
    words: impl Fn(&Instance, [u16; 2], Mode) -> Vec<u16>,
) -> Balance {
    let mut areas = Balance::default();
    for instance in &source.instances {
        for board in instance.boards() {
            for board in balances(&words(instance, board, mode)).unwrap_or_default() {
                areas.items += board.items;
                areas.offcuts += board.offcuts;
                areas.waste += board.waste;
                areas.swath += board.swath;
            }
        }
    }
    areas
}

/// The balance of each board of a job's plan, unless the job or its listing is refused.
pub fn balances(words: &[u16]) -> Result<Vec<Balance>, Refusal> {
    let inputs = Inputs::of(words)?;
    let job = Job::from_words(words)?;
    let listing = Listing::walk(&job, FULL)?;
    let counts = &inputs.counts[..listing.cuts.len()];
    let unfolding = unfold(&job, &listing, counts);
    Ok(of_boards(&job, &listing, &unfolding))
}

/// The first so many of the shares of items, offcuts, waste and swath in per cent, or a dash where
/// no job is listed.
pub fn cell(areas: &Balance, shares: usize) -> String {
    let whole = areas.whole();
    if whole == 0 {
        return "-".to_string();
    }
    let share = |area: u64| format!("{:.1}", 100.0 * area as f64 / whole as f64);
    let all = [areas.items, areas.offcuts, areas.waste, areas.swath];
    all.map(share)[..shares].join(", ")
}
