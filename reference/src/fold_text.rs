//! The fold text: job and layouts as lines, answered by the lines of a plan (document 01,
//! "Texts"; document 02, One, Five and Six).

use crate::columns::refusal_text;
use crate::folding::fold;
use crate::job::Job;
use crate::layout::Placement;
use crate::layout_lines;
use crate::listing::{Listing, FULL};
use crate::plan_lines;
use crate::refusal::Refusal;
use crate::text_lines::Lines;

/// Answers a fold text: lines of kind 3, cuts rising, or one line of kind 9 alone.
pub fn fold_text(text: &[u8]) -> Vec<u8> {
    match answer(text) {
        Ok(output) => output,
        Err(refusal) => refusal_text(refusal),
    }
}

/// The rows from the line row to the layouts row, and the output where none refuses.
fn answer(text: &[u8]) -> Result<Vec<u8>, Refusal> {
    let (job, lines) = read(text)?;
    job.admit()?;
    let listing = Listing::walk(&job, FULL)?;
    let first = 1 + job.sizes.len() + job.items.len() + 1;
    let set = layout_lines::test(&job, &lines, first)?;
    let counts = fold(&job, &listing, &set);
    Ok(plan_lines::written(&listing, &counts))
}

/// The line row: kinds 1, 10 and 2, and then any number of kind 7.
fn read(text: &[u8]) -> Result<(Job, Vec<Placement>), Refusal> {
    let mut lines = Lines::new(text);
    let job = lines.job()?;
    let mut layouts = Vec::new();
    while !lines.is_at_end() {
        let line = lines.line_of(7)?;
        let placement = Placement::from_numbers(line.values, &job);
        let placement = placement.ok_or(line.outside_limits())?;
        job.ensure_permitted(placement.position, line.number)?;
        layouts.push(placement);
    }
    Ok((job, layouts))
}
