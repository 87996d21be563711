//! The published instances that have several object sizes, each as one job on all of them (document
//! 02, Six): what the calls answer, and how the cost compares with boards of one size alone.

use super::inputs::Inputs;
use super::outcome::{self, Outcome};
use super::read::{instances, Instance};
use super::{job_words_on, periods, Source, TEXTS};
use crate::limits::{COST, SIZES};
use crate::mode::Mode;
use crate::refusal::Refusal;
use std::fmt::Write;

const HEAD: &str = "
## Several sizes in one job

Instances with two to six object sizes, all of them the sizes of one job. The cost of a size is its area, times the cost per unit of area where the table gives one; where the
dearest size of an instance would cost more than 999, it costs 999 and the others their share of that, rounded up. *Cost* is added up over the jobs listed: of plans
that fill strips, highest items first, with boards of one size alone, for each job the cheapest that there is; and of plans over all sizes, each board of the size that has
most items for its cost and the last of the cheapest that takes the rest, where that costs less. *Cheapest* is how many of the plans over all sizes the bound shows to be so. It
is 0 throughout: the bound goes by area, as the costs do, and comes within 1 of the cost only where boards are filled all but wholly.

The rows of an instance: \"24 by 14 at 336\" is a size and its cost. *Bound* is the least cost that prices by area allow, rounded up. Then for each mode: residual types, cuts, and the
boards and the cost of the plan over all sizes; \"112, 826, 2 at 260\" are 112 residual types, 826 cuts, and two boards that cost 260 together. A cost that is shown to be the
cheapest would be in bold.

| table | instances or periods | jobs | listed | refused 2 | 6 | 7 | most residual types | most cuts | cost, one size | cost, all sizes | cheapest |
|---|--:|--:|--:|--:|--:|--:|--:|--:|--:|--:|--:|
";

const COLUMNS: &str = "
| instance | sizes | types | pieces | bound | 2E | 2N | 3E | 3N |
|---|---|--:|--:|--:|---|---|---|---|
";

/// The tables whose instances have several object sizes, with these instances alone; then those with
/// periods once more, all periods of an instance together.
pub fn sources() -> Vec<Source> {
    let mut all = Vec::new();
    for [name, title, text] in TEXTS {
        all.push(several(name, title, instances(text)));
    }
    for (index, name, title) in [
        (4, "004-A.11-all", "document 004, Table A.11, all periods"),
        (5, "004-A.13-all", "document 004, Table A.13, all periods"),
    ] {
        let united = periods::united(&instances(TEXTS[index][2]));
        all.push(several(name, title, united));
    }
    all.retain(|source| !source.instances.is_empty());
    all
}

/// A table with the instances that have two to six object sizes.
fn several(name: &'static str, title: &'static str, mut instances: Vec<Instance>) -> Source {
    let many = |instance: &Instance| instance.objects.len() as u32;
    instances.retain(|instance| (2..=*SIZES.end()).contains(&many(instance)));
    Source {
        name,
        title,
        instances,
    }
}

/// Width, height and cost of each object size of an instance: the cost is the area, times the cost
/// per unit of area, or the share of the dearest size, which then costs as much as can be.
pub fn sizes(instance: &Instance) -> Vec<[u16; 3]> {
    let value = |&[width, height, _]: &[u16; 3]| {
        let given = instance
            .costs
            .iter()
            .find(|cost| cost[..2] == [width, height]);
        let unit = given.map_or(1, |cost| u64::from(cost[2]));
        u64::from(width) * u64::from(height) * unit
    };
    let most = u64::from(*COST.end());
    let dearest = instance.objects.iter().map(value).max().unwrap_or(1);
    let cost = |object: &[u16; 3]| match dearest <= most {
        true => value(object),
        false => (value(object) * most).div_ceil(dearest),
    };
    let size = |object: &[u16; 3]| [object[0], object[1], cost(object) as u16];
    instance.objects.iter().map(size).collect()
}

/// A job over sizes, with the outcome on all of them and the least cost of a plan on one of them.
struct Trial {
    outcome: Result<Outcome, Refusal>,
    one_size: Option<u32>,
}

impl Trial {
    fn of(instance: &Instance, sizes: &[[u16; 3]], mode: Mode) -> Trial {
        let on = |sizes: &[[u16; 3]]| {
            let words = job_words_on(instance, sizes, mode, 0, 0);
            outcome::of(&words, &Inputs::of(&words)?)
        };
        let alone = sizes.iter().filter_map(|&size| on(&[size]).ok());
        Trial {
            outcome: on(sizes),
            one_size: alone.map(|found| found.outlay.cost).min(),
        }
    }

    /// Residual types, cuts, boards and cost, this in bold where no plan costs less; or the refusal.
    fn cell(&self) -> String {
        match &self.outcome {
            Err(refusal) => format!("refused {}", refusal.number),
            Ok(found) => {
                let mark = if is_cheapest(found) { "**" } else { "" };
                let (listed, outlay) = (found.listed, found.outlay);
                format!(
                    "{}, {}, {} at {mark}{}{mark}",
                    listed.residuals, listed.cuts, outlay.boards, outlay.cost
                )
            }
        }
    }
}

/// Whether the bound shows that no plan costs less.
fn is_cheapest(found: &Outcome) -> bool {
    found.bound.is_cheapest(found.outlay.cost)
}

/// An instance, with a trial in each mode.
struct Row<'a> {
    instance: &'a Instance,
    trials: [Trial; 4],
}

/// The rows of a table.
fn rows(source: &Source) -> Vec<Row<'_>> {
    let row = |instance| {
        let sizes = sizes(instance);
        Row {
            instance,
            trials: Mode::ALL.map(|mode| Trial::of(instance, &sizes, mode)),
        }
    };
    source.instances.iter().map(row).collect()
}

/// A line for each table, and the tables without periods.
pub fn section() -> String {
    let sources = sources();
    let tables: Vec<(&Source, Vec<Row>)> = sources.iter().map(|one| (one, rows(one))).collect();
    let mut text = HEAD.to_string();
    for (source, rows) in &tables {
        write_line(&mut text, source.title, &overview(rows));
    }
    for (source, rows) in &tables {
        if !has_periods(source) {
            text.push_str(&table(source, rows));
        }
    }
    text
}

/// The tables with periods.
pub fn section_of_periods() -> String {
    let sources = sources();
    let with_periods = sources.iter().filter(|source| has_periods(source));
    with_periods
        .map(|source| table(source, &rows(source)))
        .collect()
}

/// Whether the instances of a table are periods of instances.
fn has_periods(source: &Source) -> bool {
    source.instances.iter().any(|one| one.name.contains('.'))
}

/// How many jobs, how many are refused with which number, how large the listings are, and the cost.
fn overview(rows: &[Row]) -> Vec<String> {
    let trials = || rows.iter().flat_map(|row| &row.trials);
    let listed = || trials().filter_map(|trial| trial.outcome.as_ref().ok());
    let refused = |number| {
        let refusals = trials().filter_map(|trial| trial.outcome.as_ref().err());
        refusals.filter(|refusal| refusal.number == number).count()
    };
    let both = trials().filter(|trial| trial.outcome.is_ok());
    let one_size: u32 = both.filter_map(|trial| trial.one_size).sum();
    let all_sizes: u32 = listed().map(|found| found.outlay.cost).sum();
    let residuals = listed().map(|found| found.listed.residuals).max();
    let cuts = listed().map(|found| found.listed.cuts).max();
    let numbers = [
        rows.len(),
        trials().count(),
        listed().count(),
        refused(2),
        refused(6),
        refused(7),
        residuals.unwrap_or(0) as usize,
        cuts.unwrap_or(0) as usize,
        one_size as usize,
        all_sizes as usize,
        listed().filter(|found| is_cheapest(found)).count(),
    ];
    numbers.map(|number| number.to_string()).to_vec()
}

/// A line for each instance of a table.
fn table(source: &Source, rows: &[Row]) -> String {
    let mut text = format!("\n### {}, several sizes\n{COLUMNS}", source.title);
    for row in rows {
        let size = |[width, height, cost]: [u16; 3]| format!("{width} by {height} at {cost}");
        let sizes: Vec<String> = sizes(row.instance).into_iter().map(size).collect();
        let pieces: u32 = row
            .instance
            .items
            .iter()
            .map(|item| u32::from(item[2]))
            .sum();
        let mut cells = vec![
            sizes.join(", "),
            row.instance.items.len().to_string(),
            pieces.to_string(),
            bound(row),
        ];
        cells.extend(row.trials.iter().map(Trial::cell));
        write_line(&mut text, &row.instance.name, &cells);
    }
    text
}

/// The cost that the area asks for, where some mode is listed.
fn bound(row: &Row) -> String {
    let found = row
        .trials
        .iter()
        .find_map(|trial| trial.outcome.as_ref().ok());
    let cost = found.map(|found| found.bound.sum.div_ceil(found.bound.d));
    cost.map_or("-".to_string(), |cost| cost.to_string())
}

/// A line of a table.
fn write_line(text: &mut String, first: &str, cells: &[String]) {
    writeln!(text, "| {first} | {} |", cells.join(" | ")).expect("a string takes all text");
}
