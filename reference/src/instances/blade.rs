//! The published instances with a blade of 4 mm, a common one (document 02, Four): what it changes
//! in listings and in plans, and what it takes of the boards.

use super::read::Instance;
use super::{areas, job_words_with, Source};
use crate::greedy;
use crate::job::{items_at, Job, ITEM_NUMBERS};
use crate::listing::{Listing, FULL};
use crate::mode::Mode;
use crate::refusal::Refusal;
use std::fmt::Write;

/// The width of the blade.
const BLADE: u16 = 4;

/// By how much the sides are taken longer, so that the boards are as large as a saw's.
const LONGER: u16 = 30;

const HEAD: &str = "
## With a blade of 4 mm

The same jobs with b = 4, a common blade, where the tables above have b = 0. *Listed* is how many jobs are listed without the blade, with it, and both ways; the number changes
where other sides of residuals bring a listing within a limit or past it. *Cuts* and *boards* are added up over the jobs listed both ways, boards of plans that fill strips,
highest items first, as above; *more* is by how many per cent the boards grow. A second table has the areas, of all boards that the plans with the blade open, in each mode:
the per cent that is items, offcuts, waste, and swath, which the blade takes outside of trims.
";

const PRINTED: &str = "
Sides as the tables print them. Most items are less than 10 long there, so that such a blade takes a large share of every board:
";

const THIRTYFOLD: &str = "
All sides thirty times as long, so that a board of 100 is one of 3,000 mm. Without a blade nothing changes by that: the same cuts, plans and shares.
";

const COLUMNS: &str = "
| table | listed without | with | both ways | cuts without | with | boards without | with | more |
|---|--:|--:|--:|--:|--:|--:|--:|--:|
";

const AREA_COLUMNS: &str = "
| table | 2E | 2N | 3E | 3N |
|---|---|---|---|---|
";

/// Two tables for the sides as they are printed, and two for longer sides.
pub fn section(sources: &[&Source]) -> String {
    let printed = tables(sources, 1);
    let thirtyfold = tables(sources, LONGER);
    [HEAD, PRINTED, &printed, THIRTYFOLD, &thirtyfold].concat()
}

/// A line for each table: listings and boards; and another one: areas. All sides are taken so many
/// times as long.
fn tables(sources: &[&Source], times: u16) -> String {
    let mut text = COLUMNS.to_string();
    for source in sources {
        let cells = Change::of(source, times).cells();
        write_line(&mut text, source, &cells);
    }
    text.push_str(AREA_COLUMNS);
    for source in sources {
        let with = |instance: &Instance, board, mode| words(instance, board, mode, times, BLADE);
        let cells = Mode::ALL.map(|mode| areas::cell(&areas::of_table(source, mode, with), 4));
        write_line(&mut text, source, &cells);
    }
    text
}

/// A line of a table.
fn write_line(text: &mut String, source: &Source, cells: &[String]) {
    writeln!(text, "| {} | {} |", source.title, cells.join(" | "))
        .expect("a string takes all text");
}

/// What the blade makes of the jobs of a table.
#[derive(Default)]
struct Change {
    listed: [usize; 2],
    both_ways: usize,
    cuts: [usize; 2],
    boards: [usize; 2],
}

impl Change {
    fn of(source: &Source, times: u16) -> Change {
        let mut change = Change::default();
        for instance in &source.instances {
            for board in instance.boards() {
                change.add(instance, board, times);
            }
        }
        change
    }

    /// Takes in an instance on a board, in each mode.
    fn add(&mut self, instance: &Instance, board: [u16; 2], times: u16) {
        for mode in Mode::ALL {
            let found = [0, BLADE].map(|blade| size(&words(instance, board, mode, times, blade)));
            for (listed, found) in self.listed.iter_mut().zip(&found) {
                *listed += usize::from(found.is_ok());
            }
            if let [Ok(without), Ok(with)] = found {
                self.both_ways += 1;
                self.cuts = [self.cuts[0] + without[0], self.cuts[1] + with[0]];
                self.boards = [self.boards[0] + without[1], self.boards[1] + with[1]];
            }
        }
    }

    /// The numbers of a line.
    fn cells(&self) -> Vec<String> {
        let [listed, cuts, boards] = [self.listed, self.cuts, self.boards];
        let counts = [&listed[..], &[self.both_ways], &cuts, &boards].concat();
        let more = 100.0 * (boards[1] as f64 / boards[0] as f64 - 1.0);
        let counts = counts.into_iter().map(|count| count.to_string());
        counts.chain([format!("{more:.1} %")]).collect()
    }
}

/// The job of an instance on a board in a mode with a blade, all sides so many times as long.
fn words(instance: &Instance, board: [u16; 2], mode: Mode, times: u16, blade: u16) -> Vec<u16> {
    let board = board.map(|side| times * side);
    let mut words = job_words_with(instance, board, mode, 0, blade);
    for item in words[items_at(1)..].chunks_mut(ITEM_NUMBERS) {
        item[..2].iter_mut().for_each(|side| *side *= times);
    }
    words
}

/// The numbers of cuts of a job and of boards of its plan, unless the job or its listing is
/// refused.
fn size(words: &[u16]) -> Result<[usize; 2], Refusal> {
    let job = Job::from_words(words)?;
    job.admit()?;
    let listing = Listing::walk(&job, FULL)?;
    Ok([listing.cuts.len(), greedy::set(&job).len()])
}
