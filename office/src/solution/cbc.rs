//! CBC's form, `solution FILE`: the status, and a line for each column and, with `printingOptions
//! all`, for each row: number, name, value, dual price. Two stars mark a line outside its limits.

use super::{number, Entry, Names, Solution, Unproved};

/// Reads all lines after the first.
pub fn read(text: &str, names: &Names) -> Result<Solution, String> {
    let status = text.lines().next().unwrap_or("");
    let none = ["infeasible", "unbounded", "no integer solution"];
    let said = status.to_ascii_lowercase();
    if none.iter().any(|none| said.contains(none)) {
        return Err(format!("CBC found no solution; it says: {status}"));
    }
    // "Stopped on time - objective value 4198.00000000"
    let mut solution = Solution {
        unproved: Unproved::of(status.split(" - ").next().unwrap_or("")),
        ..Solution::default()
    };
    for line in text.lines().skip(1).filter(|line| !line.trim().is_empty()) {
        let words: Vec<&str> = line
            .split_ascii_whitespace()
            .filter(|&word| word != "**")
            .collect();
        let entry = match words[..] {
            [_, name, value, dual] => number(value).map(|value| Entry(name, value, number(dual))),
            _ => None,
        };
        let entry = entry.ok_or(format!("this line of the solution is not CBC's: {line}"))?;
        solution.enter(names, entry)?;
    }
    Ok(solution)
}
