//! GLPK's printable form, `glpsol -o`: two tables, of rows and of columns, in fixed columns of text
//! that a line of dashes marks. Its head says how many columns there are, and its last line that it is
//! the last. HiGHS writes it too (write_solution_style = 3).

use super::{all_there, cut_short, number, Entry, Names, Solution, Unproved};
use std::ops::Range;

/// The last line of a file.
const END: &str = "End of output";

/// Where the fields of a table stand.
struct Table {
    of_columns: bool,
    name: Range<usize>,
    activity: Range<usize>,
    marginal: Option<Range<usize>>,
}

/// Reads both tables.
pub fn read(text: &str, names: &Names) -> Result<Solution, String> {
    if !text.lines().any(|line| line == END) {
        return Err(cut_short(&format!("its last line, \"{END}\", is missing")));
    }
    let mut solution = Solution {
        unproved: found(of_head(text, "Status:"))?,
        ..Solution::default()
    };
    let mut table: Option<Table> = None;
    let mut header = "";
    let mut columns = 0;
    for line in text.lines() {
        if line.starts_with("------") {
            table = Some(Table::of(header, line).ok_or("the solution's tables are not GLPK's")?);
        } else if line.trim().is_empty() {
            table = None;
        } else if let Some(table) = &table {
            let entry = table
                .entry(line)
                .ok_or(format!("this line of the solution is not GLPK's: {line}"))?;
            solution.enter(names, entry)?;
            columns += usize::from(table.of_columns);
        }
        header = line;
    }
    // "58 (58 integer, 0 binary)"
    let announced = of_head(text, "Columns:").split(' ').next();
    all_there(announced.unwrap_or(""), columns)?;
    Ok(solution)
}

/// What the head says after a word.
fn of_head<'a>(text: &'a str, word: &str) -> &'a str {
    let found = text.lines().find_map(|line| line.strip_prefix(word));
    found.map_or("", str::trim)
}

/// What the status says, unless it is that the solution is the best one. An error if there is none.
fn found(status: &str) -> Result<Option<Unproved>, String> {
    match status {
        "OPTIMAL" | "FEASIBLE" | "INTEGER OPTIMAL" | "INTEGER NON-OPTIMAL" => {
            Ok(Unproved::of(status))
        }
        _ => Err(format!(
            "GLPK found no solution; its status is {status}: give it more time"
        )),
    }
}

impl Table {
    /// The fields, from the table's head and its line of dashes.
    fn of(header: &str, dashes: &str) -> Option<Table> {
        let spans = spans(dashes);
        let widest = |span: &&Range<usize>| span.len() >= 13;
        let marginal = header.contains("Marginal").then(|| spans.last().cloned());
        Some(Table {
            of_columns: header.contains("Column name"),
            name: spans.get(1)?.clone(),
            activity: spans.iter().find(widest)?.clone(),
            marginal: marginal.flatten(),
        })
    }

    /// The fields of a line; an absent marginal, or one below GLPK's threshold, is 0.
    fn entry<'a>(&self, line: &'a str) -> Option<Entry<'a>> {
        let field = |span: &Range<usize>| {
            line.get(span.start..span.end.min(line.len()))
                .map(str::trim)
        };
        let dual = |span| match field(span) {
            None | Some("") | Some("< eps") => Some(0.0),
            Some(word) => number(word),
        };
        let marginal = match &self.marginal {
            Some(span) => Some(dual(span)?),
            None => None,
        };
        let value = number(field(&self.activity)?)?;
        Some(Entry(field(&self.name)?, value, marginal))
    }
}

/// The runs of dashes in a line.
fn spans(dashes: &str) -> Vec<Range<usize>> {
    let mut spans: Vec<Range<usize>> = Vec::new();
    for (place, byte) in dashes.bytes().enumerate() {
        match spans.last_mut() {
            Some(span) if byte == b'-' && span.end == place => span.end = place + 1,
            _ if byte == b'-' => spans.push(place..place + 1),
            _ => {}
        }
    }
    spans
}
