//! What is said of a job's size, of the types that make it, and of its parts.

use super::{extent, first_cost, in_modes, part, unturned, Extent, InMode, Parts};
use crate::columns::thousands;
use crate::job::{Job, MOST_PIECES};
use crate::words::counted;
use reference::limits::{MOST_CUTS, MOST_PLATE_TYPES};
use std::cmp::Reverse;
use std::fmt::Write;

/// The whole report, and the parts in the job's own mode if it must be parted.
pub fn report(job: &Job) -> (String, Option<Parts>) {
    let modes = in_modes(job);
    let own = modes.iter().find(|mode| mode.job.mode() == job.mode());
    let own = own.expect("the job has one of the four modes");
    let mut text = summary(own);
    text.push_str(&table(&modes));
    text.push_str(&advice(own, &modes));
    if own.refusal.is_none() {
        return (text, None);
    }
    text.push_str(&drivers(job));
    let parts = own.parts.clone();
    if let Some(parts) = &parts {
        text.push_str(&of_parts(job, parts));
    }
    (text, parts)
}

/// How large the job is in its own mode, and what the saw says of it.
fn summary(own: &InMode) -> String {
    let job = &own.job;
    let says = match own.refusal {
        None => "the saw takes it".into(),
        Some(number) => format!("the saw refuses it with {number}"),
    };
    format!(
        "Mode {}: {} of {}, {}; {says}.\n\
         The saw takes {} pieces (else 4), {} plate types (else 6) and {} cuts (else 7).\n\n",
        job.mode(),
        counted(job.demands(), "piece"),
        counted(job.items.len(), "item type"),
        words(own.extent),
        thousands(MOST_PIECES),
        thousands(MOST_PLATE_TYPES),
        thousands(MOST_CUTS)
    )
}

/// An extent in words.
fn words(extent: Extent) -> String {
    match extent {
        Some([plates, cuts]) => {
            format!(
                "{} plate types and {} cuts",
                thousands(plates),
                thousands(cuts)
            )
        }
        None => "more than 20,000 plate types or 200,000 cuts".into(),
    }
}

/// The numbers of an extent, as cells.
fn cells(extent: Extent) -> [String; 2] {
    match extent {
        Some(numbers) => numbers.map(thousands),
        None => [">20,000".into(), ">200,000".into()],
    }
}

/// The table of modes.
fn table(modes: &[InMode]) -> String {
    let mut text = String::from("mode  plate types      cuts  jobs needed  cost of first plans\n");
    for mode in modes {
        let [plates, cuts] = cells(mode.extent);
        let dash = || "-".to_string();
        let jobs = mode
            .parts
            .as_ref()
            .map_or_else(dash, |parts| parts.len().to_string());
        let cost = mode.cost.map_or_else(dash, thousands);
        let _ = writeln!(
            text,
            "{:<4}  {plates:>11}  {cuts:>8}  {jobs:>11}  {cost:>19}",
            mode.job.mode()
        );
    }
    text.push('\n');
    text
}

/// Which modes take the job whole, how many jobs the job's own mode needs, and how many if no item is turned.
fn advice(own: &InMode, modes: &[InMode]) -> String {
    if own.refusal.is_none() {
        return "No split is needed.\n".into();
    }
    let whole = modes.iter().filter(|mode| mode.refusal.is_none());
    let first = |mode: &InMode| {
        let cost = thousands(mode.cost.unwrap_or(0));
        format!("{}, where a first plan costs {cost}", mode.job.mode())
    };
    let whole: Vec<String> = whole.map(first).collect();
    let mut text = match whole[..] {
        [] => "The job fits no mode whole.\n".into(),
        _ => format!("Whole, the job fits mode {}.\n", whole.join("; and ")),
    };
    let mode = own.job.mode();
    text.push_str(&needed(&format!("In mode {mode}"), own));
    if let Some(without) = unturned(&own.job) {
        let without = InMode::of(without);
        let which = format!(
            "In mode {mode} and without leave to turn, with {},",
            words(without.extent)
        );
        text.push_str(&needed(&which, &without));
    }
    text.push('\n');
    text
}

/// How many jobs the saw needs.
fn needed(which: &str, mode: &InMode) -> String {
    match (&mode.parts, mode.cost) {
        (Some(parts), Some(cost)) => {
            let jobs = match parts.len() {
                1 => "one job, whose first plan costs".to_string(),
                many => format!("{many} jobs, whose first plans together cost"),
            };
            format!("{which} it takes {jobs} {}.\n", thousands(cost))
        }
        _ => format!("{which} an item type is too large alone, so that no split helps.\n"),
    }
}

/// The item types by how much smaller the job is without each, the one that makes it largest first.
fn drivers(job: &Job) -> String {
    let all: Vec<usize> = (1..=job.items.len()).collect();
    let mut types: Vec<(usize, Extent, Extent)> = Vec::new();
    for &item_type in &all {
        let others: Vec<usize> = all
            .iter()
            .copied()
            .filter(|&other| other != item_type)
            .collect();
        let without = match others.is_empty() {
            true => Some([job.sizes.len(), 0]),
            false => extent(&part(job, &others)),
        };
        types.push((item_type, without, extent(&part(job, &[item_type]))));
    }
    let most = |extent: Extent| extent.unwrap_or([usize::MAX; 2]);
    types.sort_by_key(|&(_, without, alone)| (most(without), Reverse(most(alone))));
    let mut text = String::from(
        "Item types, those that make the job large first: plate types and cuts without the type, and of it alone\n\
         type    width   height  without it                alone\n",
    );
    for (item_type, without, alone) in types {
        let item = job.item(item_type);
        let [plates, cuts] = cells(without);
        let [own_plates, own_cuts] = cells(alone);
        let turns = if item.turns() { ", turns" } else { "" };
        let row = format!(
            "{item_type:>4} {:>8} {:>8}  {plates:>9} {cuts:>10}  {own_plates:>9} {own_cuts:>10}  {}{turns}",
            item.width,
            item.height,
            job.name(item_type)
        );
        let _ = writeln!(text, "{}", row.trim_end());
    }
    text.push('\n');
    text
}

/// The parts in the job's own mode.
fn of_parts(job: &Job, parts: &Parts) -> String {
    let mut text = format!("Jobs in mode {} that the saw takes\n", job.mode());
    for (number, types) in (1..).zip(parts) {
        let part = part(job, types);
        let list: Vec<String> = types.iter().map(usize::to_string).collect();
        let _ = writeln!(
            text,
            "job {number}: item types {}; {}, {}; first plan's cost {}",
            list.join(", "),
            counted(part.demands(), "piece"),
            words(extent(&part)),
            thousands(first_cost(&part).unwrap_or(0))
        );
    }
    text
}
