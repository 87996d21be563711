//! What a solver says of its solution where it has not shown that it is the best one: that it was
//! stopped, say, and the bound that it had then.

use super::number;

/// What solvers call a solution that they have shown to be the best one, whatever the letters' case.
const OPTIMAL: [&str; 5] = [
    "optimal",
    "integer optimal",
    "optimal solution",
    "optimal solution found",
    "integer optimal solution",
];

/// A solver's status where it is not that its solution is the best one, and the bound on the cost that
/// stands in its file, if there is one.
#[derive(Debug, Clone, PartialEq)]
pub struct Unproved {
    pub status: String,
    pub bound: Option<f64>,
}

impl Unproved {
    /// What a status says, unless it is that the solution is the best one.
    pub fn of(status: &str) -> Option<Unproved> {
        let status = status.trim();
        let optimal = OPTIMAL.contains(&status.to_ascii_lowercase().as_str());
        (!optimal).then(|| Unproved {
            status: status.to_string(),
            bound: None,
        })
    }

    /// The status and the bound in words.
    pub fn words(&self) -> String {
        let bound = match self.bound {
            Some(bound) => format!(", with a bound of {bound} on the cost"),
            None => String::new(),
        };
        format!("the solver's status is \"{}\"{bound}", self.status)
    }
}

/// The status in a list of names and values, and its bound: HiGHS, lp_solve, SYMPHONY, SCIP and QSopt_ex
/// write theirs each in its own way, Gurobi writes none.
pub fn of_list(text: &str) -> Option<Unproved> {
    let lines: Vec<&str> = text.lines().map(str::trim_end).collect();
    let status = (0..lines.len()).find_map(|place| at_line(&lines[place..]))?;
    let mut bounds = lines
        .iter()
        .filter_map(|line| line.strip_prefix("Current Lower Bound:"));
    Some(Unproved {
        bound: bounds.next().and_then(|word| number(word.trim())),
        ..Unproved::of(status)?
    })
}

/// The status that the first of these lines gives, or announces for the next.
fn at_line<'a>(lines: &[&'a str]) -> Option<&'a str> {
    let line = *lines.first()?;
    let next = lines.get(1).copied();
    match line {
        "Model status" => next,
        "Suboptimal solution" => Some(line),
        _ if line.starts_with("****") => framed(next?),
        _ => ["Model status: ", "solution status: ", "status = "]
            .iter()
            .find_map(|start| line.strip_prefix(start)),
    }
}

/// What stands between two stars.
fn framed(line: &str) -> Option<&str> {
    let inside = line.strip_prefix('*')?.strip_suffix('*')?;
    Some(inside.trim()).filter(|inside| !inside.is_empty() && !inside.starts_with('*'))
}

#[cfg(test)]
mod tests {
    use super::*;

    #[test]
    fn the_best_solution_has_no_such_status() {
        for status in [
            "OPTIMAL",
            " Optimal",
            "INTEGER OPTIMAL",
            "Optimal Solution Found",
        ] {
            assert_eq!(Unproved::of(status), None);
        }
        for text in [
            "Model status\nOptimal\n\nx_0_1_0 2\n",
            "solution status: optimal solution found\nx_0_1_0 2\n",
            "status = OPTIMAL\nstatus OPTIMAL\n",
            "****\n* Optimal Solution Found *\n* Now displaying stats *\n****\n",
            "x_0_1_0 2\n",
        ] {
            assert_eq!(of_list(text), None, "{text}");
        }
    }

    #[test]
    fn others_are_told() {
        for (text, words) in [
            (
                "Model status\nTime limit reached\n",
                "\"Time limit reached\"",
            ),
            (
                "Model status: Time limit reached\n",
                "\"Time limit reached\"",
            ),
            (
                "\nSuboptimal solution\n\nActual\n",
                "\"Suboptimal solution\"",
            ),
            (
                "solution status: gap limit reached\n",
                "\"gap limit reached\"",
            ),
            (
                "****\n* Node Limit Reached  *\n****\nCurrent Lower Bound:   4145.50\n",
                "\"Node Limit Reached\", with a bound of 4145.5 on the cost",
            ),
        ] {
            let told = of_list(text).unwrap().words();
            assert_eq!(told, format!("the solver's status is {words}"));
        }
    }
}
