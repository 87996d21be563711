//! The published instances with leave to turn every type (document 02, One): how many more cuts
//! there are, and which jobs pass the limits then.

use super::read::Instance;
use super::{job_words_with, Source};
use crate::job::Job;
use crate::listing::{Listing, FULL};
use crate::mode::Mode;
use crate::refusal::{Refusal, ITEM_TOO_LARGE};
use std::fmt::Write;

const HEAD: &str = "
## With leave for all types

The same jobs with leave to turn every item type. *Listed* is how many jobs are listed without leave, and how many of these with it; the others are past a limit then,
6 or 7. *Fit turned* is how many are refused with 3 without leave and listed with it. *Cuts* are added up over the jobs listed both ways; *most times* is the
greatest factor of a single job.

| table | listed without | with | 6 | 7 | fit turned | cuts without | with | times | most times |
|---|--:|--:|--:|--:|--:|--:|--:|--:|--:|
";

/// What leave makes of the jobs of a table.
#[derive(Default)]
struct Change {
    listed: [usize; 2],
    refused: [usize; 2],
    fit_turned: usize,
    cuts: [usize; 2],
    most_times: f64,
    /// Instance, board and modes of the jobs that pass a limit.
    past: Vec<(String, [u16; 2], Vec<&'static str>)>,
}

/// A line for each table, and the jobs that are listed without leave and refused with it.
pub fn section(sources: &[&Source]) -> String {
    let mut text = HEAD.to_string();
    let mut past = String::new();
    for source in sources {
        let change = Change::of(source);
        writeln!(
            text,
            "| {} | {} |",
            source.title,
            change.cells().join(" | ")
        )
        .expect("a string takes all text");
        if !change.past.is_empty() {
            let jobs: Vec<String> = change.past.iter().map(past_words).collect();
            writeln!(past, "\n{}: {}.", source.title, jobs.join("; "))
                .expect("a string takes all text");
        }
    }
    text + "\nPast a limit with leave, listed without it, by instance, board and modes:\n" + &past
}

/// An instance on a board, and the modes in which it passes a limit.
fn past_words((name, [width, height], modes): &(String, [u16; 2], Vec<&str>)) -> String {
    format!("{name} on {width} by {height} {}", modes.join(" "))
}

impl Change {
    fn of(source: &Source) -> Change {
        let mut change = Change::default();
        for instance in &source.instances {
            for board in instance.boards() {
                change.add(instance, board);
            }
        }
        change
    }

    /// Takes in an instance on a board, in each mode.
    fn add(&mut self, instance: &Instance, board: [u16; 2]) {
        let mut past = Vec::new();
        for mode in Mode::ALL {
            let cuts = |leave| cuts(&job_words_with(instance, board, mode, leave, 0));
            match [cuts(0), cuts(1)] {
                [Ok(without), Ok(with)] => {
                    self.listed = self.listed.map(|listed| listed + 1);
                    self.cuts = [self.cuts[0] + without, self.cuts[1] + with];
                    self.most_times = self.most_times.max(with as f64 / without as f64);
                }
                [Ok(_), Err(refusal)] => {
                    self.listed[0] += 1;
                    self.refused[refusal.number as usize - 6] += 1;
                    past.push(mode.name());
                }
                [Err(refusal), Ok(_)] if refusal.number == ITEM_TOO_LARGE => self.fit_turned += 1,
                _ => {}
            }
        }
        if !past.is_empty() {
            self.past.push((instance.name.clone(), board, past));
        }
    }

    /// The numbers of a line.
    fn cells(&self) -> Vec<String> {
        let [listed, refused, cuts] = [self.listed, self.refused, self.cuts];
        let counts = [&listed[..], &refused, &[self.fit_turned], &cuts].concat();
        let times = [cuts[1] as f64 / cuts[0] as f64, self.most_times];
        let counts = counts.into_iter().map(|count| count.to_string());
        let times = times.into_iter().map(|times| format!("{times:.1}"));
        counts.chain(times).collect()
    }
}

/// The number of cuts of a job, unless the job or its listing is refused.
fn cuts(words: &[u16]) -> Result<usize, Refusal> {
    let job = Job::from_words(words)?;
    job.admit()?;
    Ok(Listing::walk(&job, FULL)?.cuts.len())
}
