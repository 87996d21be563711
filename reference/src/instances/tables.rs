//! The tables of `docs/INSTANCES.md` and `docs/INSTANCES-004.md`: what the calls answer on every
//! published instance.

use super::areas;
use super::blade;
use super::inputs::Inputs;
use super::leave;
use super::limit_jobs::limit_jobs;
use super::outcome::{self, Outcome};
use super::read::Instance;
use super::stock;
use super::{job_words, sources, Source};
use crate::calls::Listed;
use crate::job::{items_at, HEAD_NUMBERS};
use crate::mode::Mode;
use crate::refusal::Refusal;
use crate::size::SIZE_NUMBERS;
use std::fmt::Write;

/// The documents that are written: name within `docs/`, and text.
pub struct Document {
    pub name: &'static str,
    pub text: String,
}

const HEAD: &str = include_str!("head.md");
const HEAD_PERIODS: &str = include_str!("head-periods.md");

/// An instance on one board, with the outcome in each mode.
struct Row {
    instance: String,
    board: [u16; 2],
    types: usize,
    pieces: u32,
    outcomes: [Result<Outcome, Refusal>; 4],
}

/// Both documents. Instances of one period are in the second.
pub fn documents() -> [Document; 2] {
    let tables: Vec<(Source, Vec<Row>)> = sources()
        .into_iter()
        .map(|source| {
            let rows = source.instances.iter().flat_map(rows).collect();
            (source, rows)
        })
        .collect();
    let mut first = HEAD.to_string() + &overview(&tables);
    let mut second = HEAD_PERIODS.to_string();
    for (source, rows) in &tables {
        let has_periods = source.instances.iter().any(|one| one.name.contains('.'));
        let document = if has_periods { &mut second } else { &mut first };
        document.push_str(&section(source, rows));
    }
    let sources: Vec<&Source> = tables.iter().map(|(source, _)| source).collect();
    first.push_str(&areas::section(&sources));
    first.push_str(&leave::section(&sources));
    first.push_str(&blade::section(&sources));
    first.push_str(&stock::section());
    first.push_str(&limits());
    second.push_str(&stock::section_of_periods());
    [("INSTANCES.md", first), ("INSTANCES-004.md", second)]
        .map(|(name, text)| Document { name, text })
}

/// The rows of an instance, one for each board.
fn rows(instance: &Instance) -> Vec<Row> {
    let demand = |item: &[u16; 3]| u32::from(item[2]);
    let row = |board| Row {
        instance: instance.name.clone(),
        board,
        types: instance.items.len(),
        pieces: instance.items.iter().map(demand).sum(),
        outcomes: Mode::ALL.map(|mode| {
            let words = job_words(instance, board, mode);
            outcome::of(&words, &Inputs::of(&words)?)
        }),
    };
    instance.boards().map(row).collect()
}

/// One line for each table: how many jobs, how many are refused with which number, how large
/// the listings are.
fn overview(tables: &[(Source, Vec<Row>)]) -> String {
    let mut text = "\
| table | instances or periods | boards | jobs | listed | refused 2 | 3 | 6 | 7 | most residual types | most cuts |
|---|--:|--:|--:|--:|--:|--:|--:|--:|--:|--:|
"
    .to_string();
    for (source, rows) in tables {
        let outcomes = || rows.iter().flat_map(|row| &row.outcomes);
        let listed = || outcomes().filter_map(|outcome| outcome.as_ref().ok());
        let refused = [2, 3, 6, 7].map(|number| {
            let refusals = outcomes().filter_map(|outcome| outcome.as_ref().err());
            let many = refusals.filter(|refusal| refusal.number == number).count();
            many.to_string()
        });
        writeln!(
            text,
            "| {} | {} | {} | {} | {} | {} | {} | {} |",
            source.title,
            source.instances.len(),
            rows.len(),
            outcomes().count(),
            listed().count(),
            refused.join(" | "),
            listed()
                .map(|found| found.listed.residuals)
                .max()
                .unwrap_or(0),
            listed().map(|found| found.listed.cuts).max().unwrap_or(0),
        )
        .expect("a string takes all text");
    }
    text
}

/// The rows of a table.
fn section(source: &Source, rows: &[Row]) -> String {
    let mut text = format!("\n## {}\n\n", source.title);
    text.push_str("| instance | board | types | pieces | bound | 2E | 2N | 3E | 3N |\n");
    text.push_str("|---|---|--:|--:|--:|---|---|---|---|\n");
    for row in rows {
        let [width, height] = row.board;
        let cells = row.outcomes.each_ref().map(cell);
        writeln!(
            text,
            "| {} | {width} by {height} | {} | {} | {} | {} |",
            row.instance,
            row.types,
            row.pieces,
            bound(row),
            cells.join(" | "),
        )
        .expect("a string takes all text");
    }
    text
}

/// The jobs of `data/limits/`, with the answers that stand there.
fn limits() -> String {
    let mut text = "
## Jobs at the limits and past them

From [data/limits](../data/limits/README.md). Listing: residual types and cuts; for a refusal, what the walk would reach without limits.

| job | sizes | types | b | listing | boards, pieces of a plan |
|---|---|--:|--:|---|---|
"
    .to_string();
    for limit in limit_jobs() {
        let words = &limit.job.words;
        let size = |listed: Listed| format!("{}, {}", listed.residuals, listed.cuts);
        let listing = match (limit.listed, limit.without_limits) {
            (Ok(listed), _) => size(listed),
            (Err(refusal), None) => format!("refused {}", refusal.number),
            (Err(refusal), Some(past)) => format!("refused {}: {}", refusal.number, size(past)),
        };
        let plan = limit.plan.map_or("-".to_string(), |[boards, pieces]| {
            format!("{boards}, {pieces}")
        });
        writeln!(
            text,
            "| {} | {} | {} | {} | {listing} | {plan} |",
            limit.job.name.trim_start_matches("limits "),
            sizes_of(words),
            words[3],
            words[4],
        )
        .expect("a string takes all text");
    }
    text
}

/// The sizes of a job's words: width by height, and the cost where it is not 1.
fn sizes_of(words: &[u16]) -> String {
    let sizes = &words[HEAD_NUMBERS..items_at(usize::from(words[2]))];
    let size = |size: &[u16]| match size[2] {
        1 => format!("{} by {}", size[0], size[1]),
        cost => format!("{} by {} at {cost}", size[0], size[1]),
    };
    let sizes: Vec<String> = sizes.chunks(SIZE_NUMBERS).map(size).collect();
    sizes.join(", ")
}

/// The boards that the area asks for, where some mode is listed.
fn bound(row: &Row) -> String {
    let listed = row
        .outcomes
        .iter()
        .find_map(|outcome| outcome.as_ref().ok());
    let boards = listed.map(|found| found.bound.sum.div_ceil(found.bound.d));
    boards.map_or("-".to_string(), |boards| boards.to_string())
}

/// Residual types, cuts and boards, these in bold where no plan opens fewer; or the refusal.
fn cell(outcome: &Result<Outcome, Refusal>) -> String {
    match outcome {
        Err(refusal) => format!("refused {}", refusal.number),
        Ok(found) => {
            let mark = if found.bound.is_cheapest(found.outlay.cost) {
                "**"
            } else {
                ""
            };
            let listed = found.listed;
            let boards = found.outlay.boards;
            format!(
                "{}, {}, {mark}{boards}{mark}",
                listed.residuals, listed.cuts
            )
        }
    }
}
