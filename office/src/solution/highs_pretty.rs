//! HiGHS's pretty form (write_solution_style = 1): a table of columns and one of rows. Numbers end below
//! the last letter of their heading, dual prices are left out of an integer solution, and the name is
//! the last word. After them stands the status.

use super::{cut_short, number, status, Entry, Names, Solution};

/// Where the headings of a table end: the upper limit, the value, the dual price.
struct Table([usize; 3]);

/// Reads both tables.
pub fn read(text: &str, names: &Names) -> Result<Solution, String> {
    if !text.lines().any(|line| line.starts_with("Model status: ")) {
        return Err(cut_short("the model's status, at its end, is missing"));
    }
    let mut solution = Solution {
        unproved: status::of_list(text),
        ..Solution::default()
    };
    let mut table = None;
    for line in text.lines() {
        if let Some(next) = Table::of(line) {
            table = Some(next);
        } else if let Some(entry) = table.as_ref().and_then(|table| table.entry(line)) {
            solution.enter(names, entry)?;
        }
    }
    match solution.values.is_empty() {
        true => Err("HiGHS's solution has no column of the job's model".into()),
        false => Ok(solution),
    }
}

impl Table {
    /// The table that a line of headings begins.
    fn of(line: &str) -> Option<Table> {
        let end = |name: &str| Some(line.find(name)? + name.len());
        line.trim_start().starts_with("Index ").then_some(())?;
        Some(Table([end("Upper")?, end("Primal")?, end("Dual")?]))
    }

    /// The fields of a line, if it is one of the table's.
    fn entry<'a>(&self, line: &'a str) -> Option<Entry<'a>> {
        let Table([upper, primal, dual]) = *self;
        let field = |from, to| line.get(from..to).map(str::trim);
        let value = number(field(upper, primal)?)?;
        let dual = field(primal, dual).and_then(number);
        Some(Entry(line.split_ascii_whitespace().last()?, value, dual))
    }
}
