//! A job as a table with names, as spreadsheets write it: cells between commas, semicolons or tabs. Rows
//! `mode`, `blade` and `size` come first; then a row that names the columns, and a row for each item
//! type.

use super::{in_line, item_of, mode_named, size_of, within, Item, Job, Size};
use super::{MOST_BLADE, MOST_SIZES, MOST_TYPES};
use crate::columns::{is_remark, said, whole, written};
use crate::table::quoted;

/// The columns of the items, by the names that each may have.
const COLUMNS: [(Column, &[&str]); 5] = [
    (Column::Name, &["name", "part", "item"]),
    (Column::Width, &["width"]),
    (Column::Height, &["height"]),
    (Column::Demand, &["demand", "count", "quantity"]),
    (Column::Turn, &["turn", "leave"]),
];

/// What the rows before the items begin with.
const HEAD: [&str; 3] = ["mode", "blade", "size"];

/// Words that give leave to turn, and those that give none.
const YES: [&str; 4] = ["yes", "y", "true", "1"];
const NO: [&str; 5] = ["no", "n", "false", "0", ""];

/// What a column of the items holds.
#[derive(Debug, Clone, Copy, PartialEq, Eq)]
enum Column {
    Name,
    Width,
    Height,
    Demand,
    Turn,
}

/// What is read so far.
#[derive(Default)]
struct Read {
    mode: Option<(usize, bool)>,
    blade: Option<usize>,
    /// The lines of the rows "mode" and "blade", by their names.
    given: Vec<(String, usize)>,
    sizes: Vec<Size>,
    /// The column of each cell, once the row that names them is read.
    columns: Vec<Option<Column>>,
    items: Vec<Item>,
    names: Vec<String>,
}

/// A row: its line, and its cells without blanks around them.
struct Row {
    line: usize,
    cells: Vec<String>,
}

/// Whether a text is a table and not lines of numbers: it says something, and does not begin with a
/// number.
pub fn is_table(text: &str) -> bool {
    let first = said(text).next().map_or("1", |(_, line)| line.trim_start());
    !first.starts_with(|letter: char| letter.is_ascii_digit())
}

/// Reads a table. An error names the line, the column and the word.
pub fn read(text: &str) -> Result<Job, String> {
    let separator = separator(text);
    let mut read = Read::default();
    for (line, text) in written(text) {
        let cells = cells(text, separator);
        if is_remark(text) {
            read.remark(line, &cells.unwrap_or_default())?;
            continue;
        }
        let row = Row {
            line,
            cells: cells.map_err(in_line(line))?,
        };
        if row.cells.is_empty() {
            continue;
        }
        match read.columns.is_empty() {
            true => read.head(&row)?,
            false => read.item(&row)?,
        }
    }
    read.job()
}

/// What stands between cells: a semicolon, a tab or a comma, by the first line that has one.
fn separator(text: &str) -> char {
    let of_line =
        |(_, line): (usize, &str)| [';', '\t', ','].into_iter().find(|&by| line.contains(by));
    said(text).find_map(of_line).unwrap_or(',')
}

/// The cells of a line, those at its end left out that are empty. In a cell between quotation marks a
/// separator is a letter, and a mark is written twice. Control characters, which could not be shown, are none.
fn cells(line: &str, separator: char) -> Result<Vec<String>, String> {
    let mut cells = vec![String::new()];
    let mut inside = false;
    let mut letters = line.chars().peekable();
    while let Some(letter) = letters.next() {
        let cell = cells.last_mut().expect("a line has a cell");
        match letter {
            '"' if inside && letters.peek() == Some(&'"') => {
                letters.next();
                cell.push('"');
            }
            '"' if inside || cell.trim().is_empty() => inside = !inside,
            _ if letter == separator && !inside => cells.push(String::new()),
            _ if letter.is_control() && letter != '\t' => {
                let code = u32::from(letter);
                return Err(format!(
                    "a control character, number {code}, stands in a cell"
                ));
            }
            _ => cell.push(letter),
        }
    }
    if inside {
        return Err("a quotation mark is not closed; no cell goes beyond its line".into());
    }
    let mut cells: Vec<String> = cells.iter().map(|cell| cell.trim().to_string()).collect();
    while cells.last().is_some_and(String::is_empty) {
        cells.pop();
    }
    Ok(cells)
}

impl Row {
    /// A cell, which is empty where the row has none.
    fn cell(&self, place: usize) -> &str {
        self.cells.get(place).map_or("", String::as_str)
    }

    /// The number of a cell; an error names its word, line and column.
    fn number(&self, place: usize, name: &str) -> Result<usize, String> {
        let (word, line, column) = (self.cell(place), self.line, place + 1);
        whole(word).map_err(|fault| match word {
            "" => format!("line {line}, column {column}: {name} is missing"),
            _ => format!("{word} in line {line}, column {column} ({name}), {fault}"),
        })
    }

    /// An error if something stands beyond so many cells: a comma may have parted a number, as in "3,2".
    fn at_most(&self, many: usize) -> Result<(), String> {
        let mut beyond = (1..).zip(&self.cells).skip(many);
        match beyond.find(|(_, cell)| !cell.is_empty()) {
            None => Ok(()),
            Some((column, word)) => Err(format!(
                "{word} in line {}, column {column}, is one cell too many: leave it out, or name its \
                 column if it has one; all numbers are whole",
                self.line
            )),
        }
    }
}

impl Read {
    /// A row before the items.
    fn head(&mut self, row: &Row) -> Result<(), String> {
        let fault = in_line(row.line);
        let first = row.cell(0).to_ascii_lowercase();
        if let "mode" | "blade" = first.as_str() {
            self.once(&first, row.line)?;
        }
        row.at_most(match first.as_str() {
            "mode" | "blade" => 2,
            "size" => 4,
            _ => row.cells.len(),
        })?;
        match first.as_str() {
            "mode" => self.mode = Some(mode_named(row.cell(1)).map_err(fault)?),
            "blade" => {
                let blade = row.number(1, "blade")?;
                within("blade", blade, 0, MOST_BLADE).map_err(fault)?;
                self.blade = Some(blade);
            }
            "size" => {
                let cost = match row.cell(3) {
                    "" => 1,
                    _ => row.number(3, "cost")?,
                };
                let sides = [row.number(1, "width")?, row.number(2, "height")?];
                self.sizes
                    .push(size_of([sides[0], sides[1], cost]).map_err(fault)?);
            }
            // What Excel writes before a table, to name its separator.
            "sep=" => {}
            first if first.starts_with("instance ") || first.starts_with("job ") => {
                return Err(fault(OF_INSTANCES.into()))
            }
            _ => self.columns = columns(row).map_err(fault)?,
        }
        Ok(())
    }

    /// An error if a row of this name was there before.
    fn once(&mut self, name: &str, line: usize) -> Result<(), String> {
        let before = self.given.iter().find(|(given, _)| given == name);
        if let Some((_, before)) = before {
            return Err(format!(
                "line {line}: there is a row {name} on line {before} already"
            ));
        }
        self.given.push((name.to_string(), line));
        Ok(())
    }

    /// Where a column stands, if there is one.
    fn place(&self, column: Column) -> Option<usize> {
        self.columns.iter().position(|&there| there == Some(column))
    }

    /// A line that begins with "#": an item whose name does is not left out.
    fn remark(&self, line: usize, cells: &[String]) -> Result<(), String> {
        let is_number = |column| {
            let cell = self.place(column).and_then(|place| cells.get(place));
            cell.is_some_and(|cell| whole(cell).is_ok())
        };
        match [Column::Width, Column::Height, Column::Demand].map(is_number) {
            [true, true, true] => Err(format!(
                "line {line} begins with # and reads like an item; put its name in quotation marks, or \
                 leave the line out"
            )),
            _ => Ok(()),
        }
    }

    /// A row of an item type.
    fn item(&mut self, row: &Row) -> Result<(), String> {
        let place = |column| self.place(column);
        let name = place(Column::Name).map_or("", |place| row.cell(place));
        for word in [row.cell(0), name] {
            if HEAD.iter().any(|head| word.eq_ignore_ascii_case(head)) {
                return Err(format!(
                    "line {}: a row \"{word}\" stands before the row that names the columns, and no item \
                     has that name",
                    row.line
                ));
            }
        }
        row.at_most(self.columns.len())?;
        let number = |column, name| row.number(place(column).unwrap_or(0), name);
        let turns = place(Column::Turn).unwrap_or(usize::MAX);
        let turn = row.cell(turns);
        let leave = match turn.to_ascii_lowercase() {
            word if YES.contains(&word.as_str()) => 1,
            word if NO.contains(&word.as_str()) => 0,
            _ => {
                let [line, column] = [row.line, turns + 1];
                return Err(format!(
                    "{turn} in line {line}, column {column} (turn), must be yes or no"
                ));
            }
        };
        let numbers = [
            number(Column::Width, "width")?,
            number(Column::Height, "height")?,
            number(Column::Demand, "demand")?,
            leave,
        ];
        self.items
            .push(item_of(numbers).map_err(in_line(row.line))?);
        self.names.push(name.to_string());
        Ok(())
    }

    /// The job, if everything is there.
    fn job(self) -> Result<Job, String> {
        let (stages, exact) = self
            .mode
            .ok_or("a row is missing: mode, and 2E, 2N, 3E or 3N")?;
        let blade = self
            .blade
            .ok_or("a row is missing: blade, and its width in millimetres, 0 to 20")?;
        within(
            "the number of rows \"size\"",
            self.sizes.len(),
            1,
            MOST_SIZES,
        )?;
        within("the number of item types", self.items.len(), 1, MOST_TYPES)?;
        let named = self.names.iter().any(|name| !name.is_empty());
        Ok(Job {
            stages,
            exact,
            sizes: self.sizes,
            blade,
            items: self.items,
            names: if named { self.names } else { Vec::new() },
        })
    }
}

/// What to say of a file as in data/.
const OF_INSTANCES: &str =
    "this is a file of instances; \"office jobs FILE FOLDER\" writes its jobs";

/// The columns that a row names; others are left alone.
fn columns(row: &Row) -> Result<Vec<Option<Column>>, String> {
    let column = |cell: &String| {
        let cell = cell.to_ascii_lowercase();
        let found = COLUMNS
            .iter()
            .find(|(_, names)| names.contains(&cell.as_str()));
        found.map(|&(column, _)| column)
    };
    let columns: Vec<Option<Column>> = row.cells.iter().map(column).collect();
    for (place, column) in columns.iter().enumerate() {
        let before = columns[..place].iter().position(|before| before == column);
        if let (Some(_), Some(before)) = (column, before) {
            return Err(format!(
                "\"{}\" names the same as \"{}\", in columns {} and {}; leave one of them out",
                row.cells[place],
                row.cells[before],
                before + 1,
                place + 1
            ));
        }
    }
    all_needed(row, &columns)?;
    Ok(columns)
}

/// An error unless the columns have all that an item needs: it names those that are missing, or says that the
/// row is no such row where all are.
fn all_needed(row: &Row, columns: &[Option<Column>]) -> Result<(), String> {
    let needed = [Column::Width, Column::Height, Column::Demand];
    let missing = needed
        .iter()
        .filter(|&&column| !columns.contains(&Some(column)));
    let named = |column: &Column| {
        let found = COLUMNS.iter().find(|(of, _)| of == column);
        found.map_or(String::new(), |(_, names)| names.join(" or "))
    };
    let missing: Vec<String> = missing.map(named).collect();
    let cells = row.cells.join(", ");
    match missing.len() {
        0 => Ok(()),
        3 => Err(format!(
            "\"{cells}\" is neither mode, blade or size, nor the row that names the columns of the \
             items, such as: name, width, height, demand, turn"
        )),
        _ => Err(format!(
            "\"{cells}\" names the columns of the items, and a column is missing: {}",
            missing.join("; ")
        )),
    }
}

/// A job as a table with names.
pub fn csv(job: &Job) -> String {
    let mut text = format!("mode,{}\nblade,{}\n", job.mode(), job.blade);
    for size in &job.sizes {
        text.push_str(&format!(
            "size,{},{},{}\n",
            size.width, size.height, size.cost
        ));
    }
    text.push_str("name,width,height,demand,turn\n");
    for (item_type, item) in (1..).zip(&job.items) {
        let turn = if item.leave { "yes" } else { "no" };
        text.push_str(&format!(
            "{},{},{},{},{turn}\n",
            quoted(job.name(item_type)),
            item.width,
            item.height,
            item.demand
        ));
    }
    text
}

#[cfg(test)]
mod tests;
