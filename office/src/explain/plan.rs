//! Refusals 8 to 12, 19 and 20: the plan, and the pieces of a fold text.

use super::sent::Sent;
use super::{layouts, Told};
use crate::columns::thousands;
use crate::job::{Job, MOST_PIECES};
use crate::listing::{Listing, Plate};
use crate::plan::{balance, cut_of_type, other_shown};

/// Plate type, item type, count and turn of a line 3.
fn plan_line(sent: &Sent, line: usize) -> Option<[usize; 4]> {
    match sent.numbers(line)?[..] {
        [3, plate, item, count, _, _, _, turn] => Some([plate, item, count, turn]),
        _ => None,
    }
}

/// Refusal 8.
pub fn no_such_cut(sent: &Sent, line: usize) -> Option<Told> {
    let (job, listing) = sent.listing()?;
    let [plate, item, _, turn] = plan_line(sent, line)?;
    let turned = turn == 1;
    if item == 0 || item > job.items.len() || listing.cut_of(plate, item, turned).is_some() {
        return None;
    }
    let fault = why_no_cut(&job, &listing, plate, item, turned);
    let cure = "Number plate types as docs/FORMAT.md says, and name a cut of the listing, which \
                \"office list\" prints";
    Some(Told::new(format!("line {line}"), fault, cure))
}

/// Why an item type cannot be cut from a plate type, turned or not.
fn why_no_cut(
    job: &Job,
    listing: &Listing,
    plate: usize,
    item_type: usize,
    turned: bool,
) -> String {
    let Some(there) = listing.plates.get(plate) else {
        return format!(
            "there is no plate type {plate}; this job's run from 0 to {}",
            listing.plates.len() - 1
        );
    };
    let [width, height] = job.sides(item_type, turned);
    let fits = width <= there.width && height <= there.height;
    let why = match (fits, job.stages) {
        (false, _) => "does not fit",
        (true, 2) => "is not just as high, as mode 2E asks at stage 2",
        (true, _) => "is not just as wide, as mode 3E asks at stage 3",
    };
    let turned = if turned { " turned" } else { "" };
    format!(
        "item type {item_type}{turned} ({width} by {height}) cannot be cut from plate type {plate} \
         ({}): it {why}",
        there.words()
    )
}

/// Refusal 19, on a line of kind 3 or 7.
pub fn turned(sent: &Sent, line: usize) -> Option<Told> {
    let job = sent.job()?;
    let (item_type, turn) = match sent.numbers(line)?[..] {
        [3, _, item, _, _, _, _, turn] => (item, turn),
        [7, _, _, _, _, _, item, _, _, turn] => (item, turn),
        _ => return None,
    };
    let item = *job.items.get(item_type.checked_sub(1)?)?;
    (turn == 1 && !item.turns()).then(|| {
        let [width, height] = item.sides(false);
        let of_type = job.line_of(item_type);
        let (why, cure) = match width == height {
            true => (
                "is square and has no turned cut".to_string(),
                "Write turn 0".to_string(),
            ),
            false => (
                format!("has no leave to be turned on line {of_type}"),
                format!("Write turn 0, or leave 1 on line {of_type} if the item may be turned"),
            ),
        };
        let fault = format!("the turn is 1, but item type {item_type} ({width} by {height}) {why}");
        Told::new(format!("line {line}"), fault, cure)
    })
}

/// Refusal 20.
pub fn other_plate(sent: &Sent, line: usize) -> Option<Told> {
    let (_, listing) = sent.listing()?;
    let [plate, item, _, turn] = plan_line(sent, line)?;
    listing.cut_of(plate, item, turn == 1)?;
    let shown: [usize; 3] = sent.numbers(line)?[4..7].try_into().ok()?;
    let there = listing.plates.get(plate)?;
    let other = other_shown(there, shown)?;
    let fault = format!(
        "in the model plate type {plate} is {}; the line shows {other}",
        there.words()
    );
    let cure = match meant(&listing, shown) {
        Some(meant) => format!(
            "Number plate types as \"office list\" does: what the line shows is plate type {meant} there"
        ),
        None => "Take width, height and stage from the listing of this very job, blade and mode \
                 included; no plate type of it is what the line shows"
            .to_string(),
    };
    Some(Told::new(format!("line {line}"), fault, cure))
}

/// The plate types of this width, height and stage, as "1 (a board) or 2"; there can be several, since a
/// size may have the sides of another or of a residual.
fn meant(listing: &Listing, shown: [usize; 3]) -> Option<String> {
    let plates = listing.plates.iter().enumerate();
    let alike = plates.filter(|(_, plate)| [plate.width, plate.height, plate.stage] == shown);
    let named = |(number, _): (usize, &Plate)| match number < listing.sizes {
        true => format!("{number} (a board)"),
        false => number.to_string(),
    };
    let all: Vec<String> = alike.map(named).collect();
    (!all.is_empty()).then(|| all.join(" or "))
}

/// Refusal 9.
pub fn not_rising(sent: &Sent, line: usize) -> Option<Told> {
    let (_, listing) = sent.listing()?;
    let cut_on = |line| {
        let [plate, item, _, turn] = plan_line(sent, line)?;
        let cut = listing.cut_of(plate, item, turn == 1)?;
        Some((cut, plate, item, turn))
    };
    let (cut, plate, item, turn) = cut_on(line)?;
    let (before, ..) = cut_on(line.checked_sub(1)?)?;
    (cut <= before).then(|| {
        let fault = format!(
            "it names cut {cut} (plate type {plate}, item type {item}, turn {turn}), \
             the line before it cut {before}"
        );
        let cure = "Sort the lines of kind 3 by plate type, item type and turn, \
                    and give each cut one line";
        Told::new(format!("line {line}"), fault, cure)
    })
}

/// Refusal 10, in a saw text or a fold text.
pub fn total(sent: &Sent) -> Option<Told> {
    let (thing, total) = match sent.is_fold() {
        true => ("lines of kind 7", layouts::rows(sent).len()),
        false => {
            let count = |line| plan_line(sent, line).map_or(0, |[_, _, count, _]| count);
            ("cuts", (sent.body()..=sent.count()).map(count).sum())
        }
    };
    (total > MOST_PIECES).then(|| {
        let fault = format!(
            "there are {} {thing}; at most 4,000 are allowed",
            thousands(total)
        );
        Told::new(
            "the whole plan",
            fault,
            "Leave out surplus pieces, or split the job",
        )
    })
}

/// Refusal 11, in a saw text or a fold text.
pub fn short(sent: &Sent, item_type: usize) -> Option<Told> {
    let (job, listing) = sent.listing()?;
    let demand = job.items.get(item_type.checked_sub(1)?)?.demand;
    let (done, there, cure) = match sent.is_fold() {
        true => {
            let there = layouts::rows(sent)
                .iter()
                .filter(|row| row.item == item_type)
                .count();
            (
                "lies on the boards",
                there,
                "Add placements of it, or lower its demand",
            )
        }
        false => {
            let there = cut_of_type(&listing, &sent.counts(&job, &listing)?, item_type);
            (
                "is cut",
                there,
                "Raise the counts of cuts that yield it, or lower its demand",
            )
        }
    };
    (there < demand).then(|| {
        let fault = format!(
            "it {done} {there} times; {demand} are demanded on line {}",
            job.line_of(item_type)
        );
        Told::new(format!("item type {item_type}"), fault, cure)
    })
}

/// Refusal 12.
pub fn overdrawn(sent: &Sent, plate: usize) -> Option<Told> {
    let (job, listing) = sent.listing()?;
    let counts = sent.counts(&job, &listing)?;
    let there = listing.plates.get(plate)?;
    let [on, arises] = balance(&listing, &counts, plate);
    (plate >= listing.sizes && on > arises).then(|| {
        let fault = format!(
            "it is {}, is cut {on} times and arises {arises} times",
            there.words()
        );
        let leave = listing
            .cuts
            .iter()
            .filter(|cut| cut.kept().any(|kept| kept == plate));
        let pairs: Vec<String> = leave
            .take(4)
            .map(|cut| format!("{} {} {}", cut.plate, cut.item, cut.turn()))
            .collect();
        let cure = format!(
            "Lower the counts of lines with plate {plate}, or raise those of cuts that leave it \
             (plate, item, turn: {}, ..)",
            pairs.join("; ")
        );
        Told::new(format!("plate type {plate}"), fault, cure)
    })
}
