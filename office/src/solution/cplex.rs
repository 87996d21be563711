//! CPLEX's form, an XML file: an element for each variable with its value, and one for each
//! constraint with its dual price where the problem solved has them.

use super::{number, Entry, Names, Solution, Unproved};

/// Reads every element `variable` and `constraint`.
pub fn read(text: &str, names: &Names) -> Result<Solution, String> {
    let mut solution = Solution::default();
    for element in text.split('<') {
        if let Some(status) = attribute(element, "solutionStatusString") {
            solution.unproved = Unproved::of(status);
        }
        let (Some(name), column) = (attribute(element, "name"), element.starts_with("variable "))
        else {
            continue;
        };
        let [value, dual] = ["value", "dual"].map(|key| attribute(element, key).and_then(number));
        match (column, value, dual) {
            (true, Some(value), _) => solution.enter(names, Entry(name, value, None))?,
            (false, _, Some(dual)) => solution.enter(names, Entry(name, 0.0, Some(dual)))?,
            _ => {}
        }
    }
    match solution.values.is_empty() {
        true => Err("no variable of the job's model stands in the solution file".into()),
        false => Ok(solution),
    }
}

/// The value of an element's attribute.
fn attribute<'a>(element: &'a str, key: &str) -> Option<&'a str> {
    let (_, rest) = element.split_once(&format!(" {key}=\""))?;
    rest.split('"').next()
}
