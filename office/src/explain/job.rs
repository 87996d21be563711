//! Refusals 3 to 7: the job, the saw's memory, the model.

use super::sent::Sent;
use super::Told;
use crate::columns::thousands;
use crate::job::MOST_PIECES;
use crate::listing::Listing;

/// Refusal 3.
pub fn larger(sent: &Sent, item_type: usize) -> Option<Told> {
    let job = sent.job()?;
    let item = *job.items.get(item_type.checked_sub(1)?)?;
    (!job.fits(item_type)).then(|| {
        let turned = match item.leave {
            true => "it does not fit turned either",
            false => "it has no leave to be turned",
        };
        let fault = format!(
            "the item is {} by {} and fits no size ({}); {turned}",
            item.width,
            item.height,
            job.sizes_words()
        );
        let leave = match item.leave {
            true => "",
            false => " (leave 1 if the item may be turned)",
        };
        let cure = format!(
            "Correct line {}{leave}, or add a larger board size",
            job.line_of(item_type)
        );
        Told::new(format!("item type {item_type}"), fault, cure)
    })
}

/// Refusal 4.
pub fn demands(sent: &Sent) -> Option<Told> {
    let demands = sent.job()?.demands();
    (demands > MOST_PIECES).then(|| {
        let fault = format!(
            "the demands add up to {}; at most 4,000 are allowed",
            thousands(demands)
        );
        let cure = "Split the job into several; \"office split JOB FOLDER\" does";
        Told::new("the whole job", fault, cure)
    })
}

/// Refusal 2, place 0, which no text meets: it is given for what the controller passes besides.
pub fn passed() -> Told {
    let fault = "one of the two lengths from which an offcut is usable is outside its limits, or, as the \
                 controller passed them, stages, exact, the number of sizes or of item types, the blade, or \
                 a size's sides or cost";
    let cure = "No text causes this: set both lengths from 1 to 10,000; \
                if it stays, tell the controller's engineers";
    Told::new("place 0", fault, cure)
}

/// Refusal 5, which no text meets.
pub fn buffer(place: usize) -> Told {
    let name = match place {
        1 => "plates",
        2 => "cuts",
        3 => "counts",
        4 => "placements",
        5 => "offcuts",
        _ => "an unknown buffer",
    };
    let fault = format!("the controller lent too little room for {name}");
    Told::new(
        format!("buffer {place}"),
        fault,
        "No text causes this: tell the controller's engineers",
    )
}

/// Refusals 6 and 7.
pub fn model(sent: &Sent, number: usize) -> Option<Told> {
    let job = sent.job()?;
    let fault = Listing::of(&job).err()?;
    fault.contains(&format!("with {number};")).then(|| {
        let most = if number == 6 {
            "2,048 plate types"
        } else {
            "8,192 cuts"
        };
        let fault = format!("the job has more than {most}");
        let cure = "Take fewer item types in one job, or a two-stage or exact mode; \
                    small items on large boards take most, and each size adds its own. \
                    \"office split JOB FOLDER\" says which types and modes, and parts the job";
        Told::new("the whole job", fault, cure)
    })
}
