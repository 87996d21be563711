//! Refusals in words: which rule a line 9 names, where in the text sent, and what to change.

mod form;
mod job;
mod layouts;
mod plan;
mod prices;
mod sent;

use sent::Sent;

/// The last refusal; they are numbered from 1.
pub const LAST: usize = 20;

/// An explanation: the place in words, what is wrong there, what to change.
struct Told {
    place: String,
    fault: String,
    cure: String,
}

impl Told {
    fn new(place: impl Into<String>, fault: impl Into<String>, cure: impl Into<String>) -> Told {
        Told {
            place: place.into(),
            fault: fault.into(),
            cure: cure.into(),
        }
    }
}

/// Explains a refusal of a text: its number and the place that it names. An error says that the
/// number is none, or that the text does not show this fault, so it cannot be the text that was sent.
pub fn explain(text: &[u8], number: usize, place: usize) -> Result<String, String> {
    let sent = Sent::of(text);
    let told = match number {
        1 => form::form(&sent, place),
        2 if place == 0 => Some(job::passed()),
        2 => form::value(&sent, place),
        3 => job::larger(&sent, place),
        4 => job::demands(&sent),
        5 => Some(job::buffer(place)),
        6 | 7 => job::model(&sent, number),
        8 => plan::no_such_cut(&sent, place),
        9 => plan::not_rising(&sent, place),
        10 => plan::total(&sent),
        11 => plan::short(&sent, place),
        12 => plan::overdrawn(&sent, place),
        13 => prices::other_sizes(&sent),
        14 => prices::over_limit(&sent, place),
        15 => layouts::not_next(&sent, place),
        16 => layouts::stage_rule(&sent, place),
        17 => layouts::past_board(&sent, place),
        18 => layouts::position(&sent, place),
        19 => plan::turned(&sent, place),
        20 => plan::other_plate(&sent, place),
        _ => {
            return Err(format!(
                "there is no refusal {number}; they run from 1 to {LAST}"
            ))
        }
    };
    match told {
        Some(told) => Ok(format!("Refusal {number}, {}: {}. {}.", told.place, told.fault, told.cure)),
        None => Err(format!(
            "the text given does not show refusal {number}, place {place}: is it the text that was sent?"
        )),
    }
}

#[cfg(test)]
mod layouts_tests;
#[cfg(test)]
mod sizes_tests;
#[cfg(test)]
mod tests;
