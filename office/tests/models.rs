//! Models of random jobs: the rows of LP and MPS files, read by readers of their own, hold for just the plans
//! that the second implementation accepts, and the objective is the cost.

mod random;

use office::answer::Answer;
use office::job::Job;
use office::listing::Listing;
use office::{model, mps, plan};
use random::{one_each, saw, Random};
use std::collections::HashMap;

/// A row of an LP or MPS file: its name, its columns with their coefficients, and its relation and limit,
/// which the objective has not.
#[derive(Debug, Clone, PartialEq, Eq)]
struct Row {
    name: String,
    terms: Vec<(i64, String)>,
    limit: Option<(String, i64)>,
}

impl Row {
    /// What the terms come to, for values of the columns.
    fn value(&self, values: &HashMap<String, i64>) -> i64 {
        let terms = self.terms.iter();
        terms.map(|(factor, name)| factor * values[name]).sum()
    }

    /// Whether values of the columns keep the limit.
    fn holds(&self, values: &HashMap<String, i64>) -> bool {
        let value = self.value(values);
        match self
            .limit
            .as_ref()
            .map(|(sign, limit)| (sign.as_str(), *limit))
        {
            Some((">=", limit)) => value >= limit,
            Some(("<=", limit)) => value <= limit,
            Some(("=", limit)) => value == limit,
            other => panic!("{}: {other:?}", self.name),
        }
    }
}

/// The rows of an LP file, the objective first, and the columns that are whole numbers.
fn read_lp(text: &str) -> (Vec<Row>, Vec<String>) {
    let lines = text.lines().filter(|line| !line.starts_with('\\'));
    let body: Vec<&str> = lines.flat_map(str::split_whitespace).collect();
    let generals = body.iter().position(|&word| word == "Generals").unwrap();
    let (rows, whole) = body.split_at(generals);
    let mut read: Vec<Row> = Vec::new();
    let [mut sign, mut factor, mut relation] = [1, 1, 0];
    for &word in rows {
        match (word, read.last_mut()) {
            ("Minimize" | "Subject" | "To", _) => {}
            (name, _) if name.ends_with(':') => read.push(Row {
                name: name.trim_end_matches(':').to_string(),
                terms: Vec::new(),
                limit: None,
            }),
            ("+" | "-", _) => (sign, factor) = (if word == "+" { 1 } else { -1 }, 1),
            (">=" | "<=" | "=", Some(row)) => {
                row.limit = Some((word.to_string(), 0));
                relation = 1;
            }
            (word, Some(row)) => match (word.parse::<i64>(), relation) {
                (Ok(number), 1) => {
                    row.limit.as_mut().unwrap().1 = number;
                    relation = 0;
                }
                (Ok(number), _) => factor = number,
                (Err(_), _) => row.terms.push((sign * factor, word.to_string())),
            },
            (word, None) => panic!("{word} stands before the objective"),
        }
    }
    let whole = whole
        .iter()
        .filter(|&&word| !["Generals", "End"].contains(&word));
    (read, whole.map(|word| word.to_string()).collect())
}

/// A row of an MPS file, by its sense.
fn mps_row(sense: &str, name: &str) -> Row {
    let relation = match sense {
        "N" => None,
        "G" => Some(">="),
        "E" => Some("="),
        "L" => Some("<="),
        other => panic!("a row of sense {other}"),
    };
    Row {
        name: name.to_string(),
        terms: Vec::new(),
        limit: relation.map(|relation| (relation.to_string(), 0)),
    }
}

/// The same of an MPS file; a column stands in its rows in the order of the columns.
fn read_mps(text: &str) -> (Vec<Row>, Vec<String>) {
    let mut rows: Vec<Row> = Vec::new();
    let mut whole: Vec<String> = Vec::new();
    let mut bounds = Vec::new();
    let [mut section, mut integer] = ["", ""];
    for line in text.lines().filter(|line| !line.starts_with('*')) {
        let words: Vec<&str> = line.split_whitespace().collect();
        let place = |name: &str| rows.iter().position(|row: &Row| row.name == name).unwrap();
        match (section, &words[..]) {
            _ if !line.starts_with(' ') => section = words[0],
            ("ROWS", [sense, name]) => rows.push(mps_row(sense, name)),
            ("COLUMNS", ["MARKER", "'MARKER'", mark]) => integer = mark,
            ("COLUMNS", [column, row, factor]) => {
                let place = place(row);
                let factor = factor.parse().unwrap();
                rows[place].terms.push((factor, column.to_string()));
                if integer == "'INTORG'" && whole.last().map(String::as_str) != Some(column) {
                    whole.push(column.to_string());
                }
            }
            ("RHS", ["RHS", row, limit]) => {
                let place = place(row);
                rows[place].limit.as_mut().unwrap().1 = limit.parse().unwrap();
            }
            ("BOUNDS", ["PL", "BND", column]) => bounds.push(column.to_string()),
            _ => panic!("{line} stands in section {section}"),
        }
    }
    assert_eq!((section, integer), ("ENDATA", "'INTEND'"));
    assert_eq!(bounds, whole);
    (rows, whole)
}

/// The rows with their terms in order, those of 0 left out.
fn in_order(rows: &[Row]) -> Vec<Row> {
    let ordered = |row: &Row| {
        let mut row = row.clone();
        row.terms.retain(|(factor, _)| *factor != 0);
        row.terms.sort();
        row
    };
    rows.iter().map(ordered).collect()
}

/// The values of a model's columns for a plan.
fn values(listing: &Listing, counts: &[usize]) -> HashMap<String, i64> {
    let cuts = listing.cuts.iter().zip(counts);
    let mut values: HashMap<String, i64> = cuts
        .clone()
        .map(|(cut, &count)| (model::column(cut), count as i64))
        .collect();
    for size in 0..listing.sizes {
        let on_size = cuts.clone().filter(|(cut, _)| cut.plate == size);
        let boards: usize = on_size.map(|(_, count)| count).sum();
        values.insert(format!("size_{size}"), boards as i64);
    }
    values
}

/// The rows of a job's model, the objective first: the LP file's, which the MPS file's equal. They have the
/// names and the order of the kit's lists.
fn model_of(job: &Job, listing: &Listing) -> Vec<Row> {
    let (rows, whole) = read_lp(&model::lp(job, listing));
    let (rows_of_mps, whole_of_mps) = read_mps(&mps::mps(job, listing));
    assert_eq!(in_order(&rows_of_mps), in_order(&rows));
    assert_eq!(whole_of_mps, whole);
    let columns = model::columns(listing);
    assert!(rows[0].terms.iter().map(|(_, name)| name).eq(&columns));
    assert_eq!(whole, columns);
    let names = rows[1..].iter().map(|row| &row.name);
    assert!(names.eq(&model::rows(listing, job)));
    rows
}

/// Whether the model holds for a plan, which is just where the saw accepts it; the objective then is the
/// cost, and the boards of each size are those of its column.
fn holds(job: &Job, listing: &Listing, counts: &[usize], model: &[Row]) -> bool {
    let [objective, rows @ ..] = model else {
        panic!("the model has no objective");
    };
    let text = job.text() + &plan::lines(listing, counts);
    let answer = Answer::read(&saw(&text), job);
    let mut values = values(listing, counts);
    let holds = rows.iter().all(|row| row.holds(&values));
    assert_eq!(holds, answer.is_ok(), "{text}");
    if let Ok(answer) = answer {
        assert_eq!(objective.value(&values), answer.cost as i64);
        for size in 0..job.sizes.len() {
            let boards = answer.boards_of(size) as i64;
            assert_eq!(values[&format!("size_{size}")], boards);
        }
    }
    // Boards that are not opened are no solution.
    *values.get_mut("size_0").unwrap() += 1;
    assert!(rows.iter().any(|row| !row.holds(&values)));
    holds
}

#[test]
fn models_hold_for_just_the_plans_that_are_accepted_and_give_their_cost() {
    let mut random = Random(3);
    let [mut accepted, mut refused] = [0; 2];
    for _ in 0..150 {
        let job = random.job();
        let listing = Listing::of(&job).unwrap();
        let model = model_of(&job, &listing);
        let mut counts = one_each(&job, &listing);
        for _ in 0..6 {
            match holds(&job, &listing, &counts, &model) {
                true => accepted += 1,
                false => refused += 1,
            }
            let count = &mut counts[random.below(listing.cuts.len())];
            *count = (*count + 1).saturating_sub(random.below(3));
        }
    }
    assert!(accepted > 200 && refused > 200, "{accepted}, {refused}");
}
