//! Lists of names and values: a name and a number on a line, with or without "=" between them, other
//! lines being remarks. HiGHS (raw and sparse), lp_solve, SYMPHONY, SCIP, Gurobi and QSopt_ex write
//! such lists; a heading says what the numbers after it are.

use super::{all_there, number, status, Entry, Kind, Names, Solution};

/// What the numbers after a heading are.
#[derive(Debug, Clone, Copy, PartialEq, Eq)]
enum Section {
    Values,
    Duals,
    /// Neither: limits, reduced costs, what is left of a row.
    Others,
}

/// How headings begin, and what follows them. Of several the first counts that fits.
const HEADINGS: [(&str, Section); 12] = [
    ("# Primal solution values", Section::Values),
    ("# Dual solution values", Section::Duals),
    ("# Basis", Section::Others),
    ("Actual values of the variables", Section::Values),
    ("Actual values of the constraints", Section::Others),
    ("Objective function limits", Section::Others),
    ("Primal objective:", Section::Others),
    ("Dual value", Section::Duals),
    ("VARS:", Section::Values),
    ("REDUCED COST:", Section::Others),
    ("PI:", Section::Duals),
    ("SLACK:", Section::Others),
];

/// Before the values of the columns HiGHS writes how many follow; in its sparse form, with a minus, how
/// many of them are not 0.
const COLUMNS: &str = "# Columns ";

/// Reads every line that begins with the name of a column or a row.
pub fn read(text: &str, names: &Names) -> Result<Solution, String> {
    let mut solution = Solution {
        unproved: status::of_list(text),
        ..Solution::default()
    };
    let mut section = Section::Values;
    let mut announced = None;
    for line in text.lines() {
        if let Some((_, next)) = HEADINGS.iter().find(|(head, _)| line.starts_with(head)) {
            section = *next;
        }
        if let (Some(many), None) = (line.strip_prefix(COLUMNS), announced) {
            announced = Some(many.trim_start_matches('-'));
        }
        if let Some(entry) = entry(line, section, names)? {
            solution.enter(names, entry)?;
        }
    }
    if solution.values.is_empty() && solution.duals.is_empty() {
        return Err(match solution.unproved {
            Some(unproved) => format!("there is no solution in the file; {}", unproved.words()),
            None => NO_COLUMN.into(),
        });
    }
    if let Some(announced) = announced {
        all_there(announced, solution.values.len())?;
    }
    Ok(solution)
}

/// What a line of a section gives, if it begins with a name and a number. A column whose value is no number
/// is an error.
fn entry<'a>(line: &'a str, section: Section, names: &Names) -> Result<Option<Entry<'a>>, String> {
    let words = line.split(|letter: char| letter.is_ascii_whitespace() || letter == '=');
    let mut words = words.filter(|word| !word.is_empty());
    let (Some(name), Some(word)) = (words.next(), words.next()) else {
        return Ok(None);
    };
    match (names.kind(name), section, fraction(word)) {
        (Some(Kind::Row), Section::Duals, Some(dual)) => Ok(Some(Entry(name, dual, Some(dual)))),
        (Some(Kind::Row), ..) | (_, Section::Duals | Section::Others, _) => Ok(None),
        (_, Section::Values, Some(value)) => Ok(Some(Entry(name, value, None))),
        (Some(Kind::Column), Section::Values, None) => Err(format!(
            "{name} is {word} in the solution, which is no number"
        )),
        (None, Section::Values, None) => Ok(None),
    }
}

/// What to say of a file that is no solution, or another model's.
const NO_COLUMN: &str =
    "no column of the job's model stands in the solution file; its form must be GLPK's (glpsol -o or \
     -w), CBC's (solution), HiGHS's, CPLEX's, or lines of a name and a value";

/// A number as solvers write it, or as an exact one does: "3/2".
fn fraction(word: &str) -> Option<f64> {
    match word.split_once('/') {
        None => number(word),
        Some((above, below)) => {
            let [above, below] = [number(above)?, number(below)?];
            (below != 0.0).then(|| above / below)
        }
    }
}
