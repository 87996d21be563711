//! Refusals 13 and 14: the prices.

use super::sent::Sent;
use super::Told;
use crate::job::Job;
use crate::listing::{Cut, Listing};

/// The price lines of a text: D, then the prices of items from 1 and of residuals in their order.
struct PriceLines {
    denominator: usize,
    items: Vec<usize>,
    residuals: Vec<usize>,
}

/// Reads the lines of kinds 4, 5 and 6.
fn price_lines(sent: &Sent) -> Option<PriceLines> {
    let head = sent.price_head()?;
    let denominator = *sent.numbers(head)?.get(1)?;
    let of_kind = |kind| {
        let lines = (head..=sent.count()).filter(move |&line| sent.kind(line) == Some(kind));
        lines
            .map(|line| sent.numbers(line)?.get(2).copied())
            .collect::<Option<Vec<usize>>>()
    };
    Some(PriceLines {
        denominator,
        items: of_kind(5)?,
        residuals: of_kind(6)?,
    })
}

/// Refusal 13.
pub fn other_sizes(sent: &Sent) -> Option<Told> {
    let (job, listing) = sent.listing()?;
    let head = sent.price_head()?;
    let sizes = [*sent.numbers(head)?.get(2)?, *sent.numbers(head)?.get(3)?];
    let model = [job.items.len(), listing.residual_types()];
    (sizes != model).then(|| {
        let [n, m] = model;
        let fault = format!(
            "line {head} gives n {} and m {}; this job has {n} item types and {m} residual types",
            sizes[0], sizes[1]
        );
        let cure = format!(
            "Give a price for each of the {n} item types and each of the {m} residual types"
        );
        Told::new("the whole price list", fault, cure)
    })
}

/// Refusal 14.
pub fn over_limit(sent: &Sent, number: usize) -> Option<Told> {
    let (job, listing) = sent.listing()?;
    let cut = *listing.cuts.get(number.checked_sub(1)?)?;
    let prices = price_lines(sent)?;
    let residual = |plate: usize| prices.residuals.get(plate - listing.sizes).copied();
    let mut worth = *prices.items.get(cut.item - 1)?;
    for plate in cut.kept() {
        worth += residual(plate)?;
    }
    let limit = match job.sizes.get(cut.plate) {
        Some(size) => prices.denominator * size.cost,
        None => residual(cut.plate)?,
    };
    (worth > limit).then(|| {
        let fault = format!(
            "{} are worth {worth}, above {limit}, {}",
            parts(&cut),
            limit_words(&job, &listing, &cut)
        );
        let cure = "Lower the prices of what the cut yields, or raise the price of the plate \
                    that it cuts (D for a size)";
        Told::new(format!("cut {number}"), fault, cure)
    })
}

/// What a cut yields, in words.
fn parts(cut: &Cut) -> String {
    let kept: Vec<String> = cut
        .kept()
        .map(|plate| format!("plate type {plate}"))
        .collect();
    let turned = if cut.turned { " turned" } else { "" };
    let item = format!("item type {}{turned}", cut.item);
    [vec![item], kept].concat().join(" and ")
}

/// What a cut's worth is compared with, in words.
fn limit_words(job: &Job, listing: &Listing, cut: &Cut) -> String {
    let plate = cut.plate;
    match job.sizes.get(plate) {
        Some(size) => format!(
            "the D of line 4 times the cost of size {plate}, {}",
            size.cost
        ),
        None => format!(
            "the price of plate type {plate} ({}), from which they are cut",
            listing.plates[plate].words()
        ),
    }
}
