//! GLPK's plain form, `glpsol -w`: a line for each row and each column, by number. HiGHS writes it too
//! (write_solution_style = 2), with the objective as one row more, where its model file has it: of an MPS
//! file the first row, of an LP file the last.

use super::{cut_short, number, Entry, Names, Solution, Unproved};

/// The last line of a file.
const END: &str = "e o f";

/// Reads the lines `s`, `i` and `j`; a basic or interior solution ends each line with the dual price.
pub fn read(text: &str, names: &Names) -> Result<Solution, String> {
    if !text.lines().any(|line| line == END) {
        return Err(cut_short(&format!("its last line, \"{END}\", is missing")));
    }
    let mut solution = Solution::default();
    let mut with_duals = false;
    let mut before = 0;
    for line in text.lines() {
        let words: Vec<&str> = line.split_ascii_whitespace().collect();
        match words[..] {
            ["s", kind, rows, columns, ref state @ .., _] => {
                with_duals = kind != "mip";
                sized(names, rows, columns)?;
                solution.unproved = found(kind, state)?;
                before = objective_before(text, names, rows, with_duals);
            }
            ["i" | "j", place, .., value] if !with_duals => {
                let name = named(names, words[0], place, before)?;
                solution.enter(names, Entry(name, read_number(value)?, None))?;
            }
            ["i" | "j", place, .., value, dual] => {
                let name = named(names, words[0], place, before)?;
                let dual = Some(read_number(dual)?);
                solution.enter(names, Entry(name, read_number(value)?, dual))?;
            }
            _ => {}
        }
    }
    Ok(solution)
}

/// A number of the solution.
fn read_number(word: &str) -> Result<f64, String> {
    number(word).ok_or(format!("{word} is not a number of GLPK's"))
}

/// An error unless the solution has as many rows and columns as the job's model, or the objective as a row
/// more.
fn sized(names: &Names, rows: &str, columns: &str) -> Result<(), String> {
    let [model_rows, model_columns] = [names.rows.len(), names.columns.len()];
    let with = |more: usize| rows.parse() == Ok(model_rows + more);
    match columns.parse() == Ok(model_columns) && (with(0) || with(1)) {
        true => Ok(()),
        false => Err(format!(
            "the solution has {rows} rows and {columns} columns, this job's model {model_rows} and \
             {model_columns}: was it made from this job's model?"
        )),
    }
}

/// What the status letters say, unless it is that the solution is the best one: `o` says that, and so
/// does `f`, feasible, of a basic solution, where it stands twice. An error if they say that there is no
/// solution.
fn found(kind: &str, state: &[&str]) -> Result<Option<Unproved>, String> {
    match (kind, state) {
        (_, ["o"]) | ("bas", ["f", "f"]) => Ok(None),
        ("mip", ["f"]) => Ok(Unproved::of("INTEGER NON-OPTIMAL")),
        _ => Err("GLPK found no solution: give it more time".into()),
    }
}

/// 1 if the objective is a row and stands before the others, else 0. Row boards_0, which follows the items',
/// is 0 in every solution; with the objective before it, its number is that of the last item's row, which
/// is not, since there is a demand.
fn objective_before(text: &str, names: &Names, rows: &str, with_duals: bool) -> usize {
    if rows.parse() != Ok(names.rows.len() + 1) {
        return 0;
    }
    let boards = names.rows.iter().position(|row| row == "boards_0");
    let start = format!("i {} ", boards.unwrap_or(0) + 1);
    let line = text.lines().find_map(|line| line.strip_prefix(&start));
    let mut words = line.unwrap_or("").split_ascii_whitespace().rev();
    let value = words.nth(usize::from(with_duals)).and_then(number);
    usize::from(value.is_some_and(|value| value.abs() > 0.5))
}

/// The name of a row (`i`) or column (`j`) by its number, so many rows standing before the model's; the
/// objective has none.
fn named<'a>(names: &'a Names, which: &str, place: &str, before: usize) -> Result<&'a str, String> {
    let (list, before) = match which {
        "i" => (&names.rows, before),
        _ => (&names.columns, 0),
    };
    let place: Option<usize> = place.parse().ok();
    let place = place.and_then(|place| place.checked_sub(before));
    match place {
        Some(0) if before == 1 => Ok(""),
        Some(place) if which == "i" && before == 0 && place == list.len() + 1 => Ok(""),
        _ => {
            let name = place.and_then(|place| list.get(place.checked_sub(1)?));
            name.map(String::as_str)
                .ok_or("a row or column number of the solution is not the model's".into())
        }
    }
}
