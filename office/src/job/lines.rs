//! A job as lines of kinds 1, 10 and 2, and what may follow them in a text.

use super::{in_line, item_of, size_of, within, Item, Job, Size};
use super::{MOST_BLADE, MOST_SIZES, MOST_TYPES};
use crate::columns::{said, whole_numbers};

impl Job {
    /// Reads the job's lines, whether or not the job they give is admitted; what follows them is left
    /// alone.
    pub fn of_lines(text: &str) -> Result<Job, String> {
        let mut lines = said(text);
        let [stages, exact, many, types, blade] = match lines.next() {
            Some((number, first)) => head(first, number)?,
            None => {
                let form = "1, stages, exact, t, n, b";
                return Err(format!("the job is empty; its first line is {form}"));
            }
        };
        let mut sizes = Vec::new();
        for size in 0..many {
            let Some((number, next)) = lines.next() else {
                let there = sizes.len();
                return Err(format!(
                    "line 1 announces {many} board size(s), but only {there} line(s) of kind 10 follow"
                ));
            };
            sizes.push(size_line(next, number, size)?);
        }
        let mut items = Vec::new();
        for item_type in 1..=types {
            let Some((number, next)) = lines.next() else {
                let there = items.len();
                return Err(format!(
                    "line 1 announces {types} item types, but only {there} line(s) of kind 2 follow"
                ));
            };
            items.push(item_line(next, number, item_type)?);
        }
        Ok(Job {
            stages,
            exact: exact == 1,
            sizes,
            blade,
            items,
            names: Vec::new(),
        })
    }

    /// What follows the job's lines is the rest of a text: lines 3, and perhaps prices, lines 4, 5 and 6;
    /// or lines 7. An error names the first line that is neither.
    pub(super) fn followed(&self, text: &str) -> Result<(), String> {
        let mut before = 2;
        for (number, line) in said(text).skip(self.lines()) {
            let types = self.items.len();
            let rule =
                "after the job's lines there may stand the rest of a text for the saw, lines of \
                        kinds 3 to 6 in their order, or for the fold program, lines of kind 7";
            let numbers =
                whole_numbers(line, number).map_err(|fault| format!("{fault}; {rule}"))?;
            let kind = numbers[0];
            match (before, kind) {
                (2 | 3, 3 | 4) | (4 | 5, 5 | 6) | (6, 6) | (2 | 7, 7) => before = kind,
                (_, 2) => {
                    return Err(format!(
                    "line {number} is of kind 2, and line 1 announces {types} item types, which \
                         stand before it: correct n, or leave the line out"
                ))
                }
                _ => {
                    return Err(format!(
                        "line {number} is of kind {kind}, which does not belong there: {rule}"
                    ))
                }
            }
        }
        Ok(())
    }
}

/// The numbers of line 1 after its kind, each within its limits.
fn head(first: &str, line: usize) -> Result<[usize; 5], String> {
    let form = "1, stages (2 or 3), exact (1 or 0), t, the number of board sizes, \
                n, b, the width of the blade";
    let [_, stages, exact, sizes, types, blade] = of_kind(first, line, 1, form)?;
    for (name, number, least, most) in [
        ("stages", stages, 2, 3),
        ("exact", exact, 0, 1),
        ("t", sizes, 1, MOST_SIZES),
        ("n", types, 1, MOST_TYPES),
        ("b", blade, 0, MOST_BLADE),
    ] {
        within(name, number, least, most).map_err(in_line(line))?;
    }
    Ok([stages, exact, sizes, types, blade])
}

/// The numbers of a line that must be of this kind and form.
fn of_kind<const N: usize>(
    text: &str,
    line: usize,
    kind: usize,
    form: &str,
) -> Result<[usize; N], String> {
    let all = whole_numbers(text, line)
        .map_err(|fault| format!("{fault}; line {line} must be: {form}"))?;
    let [many, first] = [all.len(), all.first().copied().unwrap_or(0)];
    match all.try_into() {
        Ok(numbers) if first == kind => Ok(numbers),
        _ => Err(format!(
            "line {line} must be: {form}; it has {many} number(s), the first being the kind"
        )),
    }
}

/// The size of a line 10, whose running number must be the one given.
fn size_line(text: &str, line: usize, size: usize) -> Result<Size, String> {
    let form = format!("10, {size}, W, H, cost");
    let [_, number, width, height, cost] = of_kind(text, line, 10, &form)?;
    if number != size {
        return Err(format!(
            "line {line} must be: {form}; sizes stand in order from 0, and {number} is not the next"
        ));
    }
    size_of([width, height, cost]).map_err(in_line(line))
}

/// The item type of a line 2, whose running number must be the one given.
fn item_line(text: &str, line: usize, item_type: usize) -> Result<Item, String> {
    let form = format!("2, {item_type}, width, height, demand, leave");
    let [_, number, width, height, demand, leave] = of_kind(text, line, 2, &form)?;
    if number != item_type {
        return Err(format!(
            "line {line} must be: {form}; item types stand in order, and {number} is not the next"
        ));
    }
    item_of([width, height, demand, leave]).map_err(in_line(line))
}
