//! Solutions: the values and dual prices in a solver's solution file.
//!
//! Six forms are told apart by their first lines: GLPK's printable form (`glpsol -o`), GLPK's plain
//! form (`glpsol -w`), CBC's (`solution`), CPLEX's, HiGHS's pretty form, and lists of names and values
//! (HiGHS, lp_solve, SYMPHONY, SCIP, Gurobi, QSopt_ex).

mod cbc;
mod cplex;
mod glpk_plain;
mod glpk_printed;
mod highs_pretty;
mod named;
mod status;

use crate::job::Job;
use crate::listing::Listing;
use crate::model;
pub use status::Unproved;
use std::collections::HashMap;

/// What a solution file says: values of columns, dual prices of rows if it has them, and the solver's
/// status unless it is that no solution is better.
#[derive(Debug, Clone, Default, PartialEq)]
pub struct Solution {
    pub values: HashMap<String, f64>,
    pub duals: HashMap<String, f64>,
    pub unproved: Option<Unproved>,
}

/// The names of a model's columns and rows, each in the model's order, and which of them is which.
#[derive(Debug, Clone)]
pub struct Names {
    columns: Vec<String>,
    rows: Vec<String>,
    kinds: HashMap<String, Kind>,
}

/// What a name stands for.
#[derive(Debug, Clone, Copy, PartialEq, Eq)]
enum Kind {
    Column,
    Row,
}

impl Names {
    /// The names of a job's model.
    pub fn of(job: &Job, listing: &Listing) -> Names {
        let columns = model::columns(listing);
        let rows = model::rows(listing, job);
        let named = |list: &[String], kind| {
            list.iter()
                .map(|name| (name.clone(), kind))
                .collect::<Vec<_>>()
        };
        let kinds = [named(&columns, Kind::Column), named(&rows, Kind::Row)].concat();
        Names {
            columns,
            rows,
            kinds: kinds.into_iter().collect(),
        }
    }

    /// What a name stands for, if the model has it.
    fn kind(&self, name: &str) -> Option<Kind> {
        self.kinds.get(name).copied()
    }
}

/// A line of a solution: a row or column by name, its value, its dual price if it has one.
struct Entry<'a>(&'a str, f64, Option<f64>);

impl Solution {
    /// Reads a solution file, whichever form it has; a byte order mark says nothing.
    pub fn read(text: &str, names: &Names) -> Result<Solution, String> {
        let text = text.strip_prefix('\u{feff}').unwrap_or(text);
        let first = text
            .lines()
            .find(|line| !line.trim().is_empty())
            .unwrap_or("");
        match first {
            "" => Err("the solution file is empty: did the solver find a solution?".into()),
            _ if first.starts_with("Problem:") => glpk_printed::read(text, names),
            _ if first.starts_with("c ") || first.starts_with("s ") => {
                glpk_plain::read(text, names)
            }
            _ if first.contains("objective value") && !first.starts_with("objective") => {
                cbc::read(text, names)
            }
            _ if first.starts_with("<?xml") => cplex::read(text, names),
            "Columns" => highs_pretty::read(text, names),
            _ => named::read(text, names),
        }
    }

    /// Takes in a line: a column's value, a row's dual price. A column that the job has not is refused.
    fn enter(&mut self, names: &Names, Entry(name, value, dual): Entry) -> Result<(), String> {
        match (names.kind(name), dual) {
            (Some(Kind::Column), _) => {
                self.values.insert(name.into(), value);
            }
            (Some(Kind::Row), Some(dual)) => {
                self.duals.insert(name.into(), dual);
            }
            (None, _) => {
                if let Some(thing) = foreign(name) {
                    return Err(format!(
                        "the solution has a column {name}, and this job has no such {thing}: \
                         was it made from this job's model?"
                    ));
                }
            }
            _ => {}
        }
        Ok(())
    }
}

/// What a column of another model stands for, if the name is one.
fn foreign(name: &str) -> Option<&'static str> {
    match name {
        _ if name.starts_with(model::CUT) => Some("cut"),
        _ if name.starts_with(model::SIZE) => Some("size"),
        _ => None,
    }
}

/// What to say of a file whose end is missing.
fn cut_short(what: &str) -> String {
    format!("the solution file is cut short: {what}; was the solver stopped while it wrote?")
}

/// An error unless as many columns are there as a file announces.
fn all_there(announced: &str, there: usize) -> Result<(), String> {
    match announced.parse() == Ok(there) {
        true => Ok(()),
        false => Err(cut_short(&format!(
            "it announces {announced} columns, and {there} are there"
        ))),
    }
}

/// A number as solvers write it.
fn number(word: &str) -> Option<f64> {
    let value: f64 = word.parse().ok()?;
    value.is_finite().then_some(value)
}

#[cfg(test)]
mod tests;
