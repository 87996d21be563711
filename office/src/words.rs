//! Words and numbers as drawings, lists and totals write them.

use crate::columns::thousands;
use crate::job::Job;
use reference::Balance;

/// The name of an item type, if the job gives it one. Lines of kind 2 have none.
pub fn item_name(job: &Job, item_type: usize) -> Option<&str> {
    Some(job.name(item_type)).filter(|name| !name.is_empty())
}

/// An item type in words, as "type 3", with its name behind it, as "type 3, shelf".
pub fn item_type(job: &Job, item_type: usize) -> String {
    match item_name(job, item_type) {
        Some(name) => format!("type {item_type}, {name}"),
        None => format!("type {item_type}"),
    }
}

/// An offcut in words.
pub fn offcut(usable: bool) -> &'static str {
    match usable {
        true => "usable offcut",
        false => "offcut",
    }
}

/// Two sides, as "1200 × 600".
pub fn sides([width, height]: [usize; 2]) -> String {
    format!("{width} × {height}")
}

/// Strip, stack and place, as "2.1.3", as far as they are none of them 0.
pub fn dotted(place: &[usize; 3]) -> String {
    let numbers = place.iter().take_while(|&&number| number > 0);
    let numbers: Vec<String> = numbers.map(usize::to_string).collect();
    numbers.join(".")
}

/// A number of things, in the singular or the plural.
pub fn counted(number: usize, thing: &str) -> String {
    let plural = if number == 1 { "" } else { "s" };
    format!("{} {thing}{plural}", thousands(number))
}

/// A share in percent, with one decimal.
pub fn percent(part: u64, whole: u64) -> String {
    format!("{:.1} %", 100.0 * part as f64 / whole as f64)
}

/// What becomes of the area of a board, or of all boards, in per cent.
pub fn shares(areas: &Balance) -> String {
    let share = |part: u64| percent(part, areas.whole());
    format!(
        "yield {}, offcuts {}, waste {}, swath {}",
        share(areas.items),
        share(areas.offcuts),
        share(areas.waste),
        share(areas.swath)
    )
}

/// Rising numbers of a thing, those in a row joined, as "boards 1 to 43, 50"; at most so many
/// parts.
pub fn ranges(thing: &str, numbers: &[usize], most: usize) -> String {
    let mut parts: Vec<[usize; 2]> = Vec::new();
    for &number in numbers {
        match parts.last_mut() {
            Some([_, last]) if *last + 1 == number => *last = number,
            _ => parts.push([number, number]),
        }
    }
    let words = |&[first, last]: &[usize; 2]| match last - first {
        0 => first.to_string(),
        _ => format!("{first} to {last}"),
    };
    let shown: Vec<String> = parts.iter().take(most).map(words).collect();
    let after = parts.iter().skip(most);
    let more: usize = after.map(|[first, last]| last - first + 1).sum();
    let more = match more {
        0 => String::new(),
        _ => format!(" and {more} more"),
    };
    let plural = if numbers.len() == 1 { "" } else { "s" };
    format!("{thing}{plural} {}{more}", shown.join(", "))
}

#[cfg(test)]
mod tests {
    use super::*;

    #[test]
    fn numbers_in_a_row_are_joined() {
        assert_eq!(ranges("board", &[7], 4), "board 7");
        assert_eq!(ranges("board", &[1, 2, 3, 4], 4), "boards 1 to 4");
        assert_eq!(
            ranges("board", &[1, 2, 4, 6, 7], 4),
            "boards 1 to 2, 4, 6 to 7"
        );
        let shortened = "boards 1, 3 and 3 more";
        assert_eq!(ranges("board", &[1, 3, 5, 6, 8], 2), shortened);
    }
}
