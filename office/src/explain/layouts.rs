//! Refusals 15 to 18: the layouts of a fold text. Items are measured as they lie, with the blade between
//! neighbours.

use super::sent::Sent;
use super::{form, Told};
use crate::job::{Job, Size};

/// A line of kind 7.
#[derive(Debug, Clone, Copy)]
pub struct Row {
    pub line: usize,
    pub size: usize,
    pub turn: [usize; 4],
    pub item: usize,
    pub turned: bool,
    pub at: [usize; 2],
}

impl Row {
    /// The width of the item as it lies.
    fn width(&self, job: &Job) -> usize {
        job.sides(self.item, self.turned)[0]
    }

    /// The height of the item as it lies.
    fn height(&self, job: &Job) -> usize {
        job.sides(self.item, self.turned)[1]
    }
}

/// The lines of kind 7, those left out that have a number outside its limits: they are refused before
/// any layout is looked at.
pub fn rows(sent: &Sent) -> Vec<Row> {
    let row = |line| match sent.numbers(line)?[..] {
        [7, board, size, strip, stack, place, item, x, y, turn] => {
            let told = form::value(sent, line);
            told.is_none().then_some(Row {
                line,
                size,
                turn: [board, strip, stack, place],
                item,
                turned: turn == 1,
                at: [x, y],
            })
        }
        _ => None,
    };
    (sent.body()..=sent.count()).filter_map(row).collect()
}

/// A strip: its stacks from the left, each its rows from the bottom.
struct Strip {
    stacks: Vec<Vec<Row>>,
}

impl Strip {
    /// The strip of a board.
    fn of(rows: &[Row], board: usize, strip: usize) -> Strip {
        let rows = rows.iter().filter(|row| row.turn[..2] == [board, strip]);
        let mut stacks: Vec<Vec<Row>> = Vec::new();
        for &row in rows {
            match stacks.last_mut() {
                Some(stack) if stack[0].turn[2] == row.turn[2] => stack.push(row),
                _ => stacks.push(vec![row]),
            }
        }
        Strip { stacks }
    }

    /// The heights of the stacks: their items' heights and the blade between them.
    fn heights(&self, job: &Job) -> Vec<usize> {
        let height = |stack: &Vec<Row>| together(job, stack.iter().map(|row| row.height(job)));
        self.stacks.iter().map(height).collect()
    }

    /// The widths of the stacks: each that of its widest item.
    fn widths(&self, job: &Job) -> Vec<usize> {
        let width = |stack: &Vec<Row>| stack.iter().map(|row| row.width(job)).max().unwrap_or(0);
        self.stacks.iter().map(width).collect()
    }

    /// The height of the strip: that of its highest stack.
    fn height(&self, job: &Job) -> usize {
        self.heights(job).into_iter().max().unwrap_or(0)
    }
}

/// Lengths in a row and the blade between them.
fn together(job: &Job, lengths: impl Iterator<Item = usize>) -> usize {
    let row = lengths.reduce(|row, length| row + job.blade + length);
    row.unwrap_or(0)
}

/// Lengths in a row and the blade after each of them.
fn before(job: &Job, lengths: impl Iterator<Item = usize>) -> usize {
    lengths.map(|length| length + job.blade).sum()
}

/// The blade between neighbours in words, if it has a width.
fn with_blade(job: &Job) -> String {
    match job.blade {
        0 => String::new(),
        blade => format!(" with a blade of {blade} between them"),
    }
}

/// The rows, the job, and the row on a line, with its board and strip.
fn at(sent: &Sent, line: usize) -> Option<(Vec<Row>, Job, Row)> {
    let rows = rows(sent);
    let row = *rows.iter().find(|row| row.line == line)?;
    Some((rows, sent.job()?, row))
}

/// Where a strip of a board begins: the heights of the strips below it, the blade after each.
fn below(rows: &[Row], job: &Job, board: usize, strip: usize) -> usize {
    let lower = (1..strip).map(|lower| Strip::of(rows, board, lower).height(job));
    before(job, lower)
}

/// Refusal 15: the turn first, since the size is that of the line's board only where the line is in turn.
pub fn not_next(sent: &Sent, line: usize) -> Option<Told> {
    let (rows, job, row) = at(sent, line)?;
    let before = rows.iter().find(|before| before.line + 1 == line);
    let next = match before.map(|before| before.turn) {
        None => vec![[1, 1, 1, 1]],
        Some([b, s, k, p]) => vec![
            [b, s, k, p + 1],
            [b, s, k + 1, 1],
            [b, s + 1, 1, 1],
            [b + 1, 1, 1, 1],
        ],
    };
    if next.contains(&row.turn) {
        return other_size(&rows, &job, &row);
    }
    let shown = |turn: &[usize; 4]| turn.map(|number| number.to_string()).join(" ");
    let fault = format!(
        "board, strip, stack, place are {}, not the next in turn",
        shown(&row.turn)
    );
    let all: Vec<String> = next.iter().map(shown).collect();
    let size = before.filter(|before| before.size != row.size);
    let size = size.map_or(String::new(), |before| {
        format!("; board {} has size {}", before.turn[0], before.size)
    });
    let cure = format!(
        "Number them from 1 without gaps: there {} can stand{size}",
        all.join(", or ")
    );
    Some(Told::new(format!("line {line}"), fault, cure))
}

/// Refusal 15 for the size: another one than that of the board's first line.
fn other_size(rows: &[Row], job: &Job, row: &Row) -> Option<Told> {
    let first = rows.iter().find(|first| first.turn[0] == row.turn[0])?;
    (first.size != row.size).then(|| {
        let sides = |size: usize| job.sizes.get(size).map_or(String::new(), Size::words);
        let [board, line] = [row.turn[0], row.line];
        let fault = format!(
            "it names size {} ({}), but board {board} has size {} ({}), from its first line, {}",
            row.size,
            sides(row.size),
            first.size,
            sides(first.size),
            first.line
        );
        let cure = format!(
            "Write size {} there, or number the boards so that each has one size",
            first.size
        );
        Told::new(format!("line {line}"), fault, cure)
    })
}

/// Refusal 16.
pub fn stage_rule(sent: &Sent, line: usize) -> Option<Told> {
    let (rows, job, row) = at(sent, line)?;
    let [board, number, ..] = row.turn;
    let strip = Strip::of(&rows, board, number);
    let [heights, height] = [strip.heights(&job), vec![strip.height(&job)]];
    let single = |stack: &Vec<Row>| stack.len() == 1;
    let same = |stack: &Vec<Row>| {
        stack
            .iter()
            .all(|row| row.width(&job) == stack[0].width(&job))
    };
    let full = strip
        .stacks
        .iter()
        .zip(&heights)
        .any(|(stack, of)| single(stack) && *of == height[0]);
    let fault = match job.two_stage() {
        true if !strip.stacks.iter().all(single) => {
            "in two stages each stack is one item".to_string()
        }
        true if job.exact && heights.iter().any(|of| *of != height[0]) => {
            "in mode 2E all items of a strip are equally high".to_string()
        }
        false if !full => format!(
            "no stack of the strip is a single item of the strip's height, {}",
            height[0]
        ),
        false if job.exact && !strip.stacks.iter().all(same) => {
            "in mode 3E all items of a stack are equally wide".to_string()
        }
        _ => return None,
    };
    let cure = format!(
        "Rearrange strip {number} of board {board}, or send the job in a mode that allows it"
    );
    Some(Told::new(format!("strip from line {line}"), fault, cure))
}

/// Refusal 17.
pub fn past_board(sent: &Sent, line: usize) -> Option<Told> {
    let (rows, job, row) = at(sent, line)?;
    let [board, number, ..] = row.turn;
    let strip = Strip::of(&rows, board, number);
    let across = together(&job, strip.widths(&job).into_iter());
    let upwards = below(&rows, &job, board, number) + strip.height(&job);
    let size = *job.sizes.get(row.size)?;
    let fault = match (across > size.width, upwards > size.height) {
        (true, _) => format!(
            "its stacks are {across} wide together{}, the board {}",
            with_blade(&job),
            size.width
        ),
        (false, true) => format!("it reaches up to {upwards}, the board to {}", size.height),
        _ => return None,
    };
    let cure = format!(
        "Move items from strip {number} of board {board}, which is of size {}, to another strip or \
         board",
        row.size
    );
    Some(Told::new(format!("strip from line {line}"), fault, cure))
}

/// Refusal 18.
pub fn position(sent: &Sent, line: usize) -> Option<Told> {
    let (rows, job, row) = at(sent, line)?;
    let [board, number, stack, _] = row.turn;
    let strip = Strip::of(&rows, board, number);
    let x = before(&job, strip.widths(&job).into_iter().take(stack - 1));
    let lower = strip
        .stacks
        .get(stack - 1)?
        .iter()
        .take_while(|lower| lower.line < line);
    let lower = before(&job, lower.map(|lower| lower.height(&job)));
    let y = below(&rows, &job, board, number) + lower;
    (row.at != [x, y]).then(|| {
        let fault = format!(
            "x and y are {} and {}, the item's position is {x} and {y}",
            row.at[0], row.at[1]
        );
        let blade = match job.blade {
            0 => String::new(),
            blade => format!(", and {blade} for the blade after each of them"),
        };
        let cure = format!(
            "x is the widths of the stacks before it; \
             y the strips below plus the items below it in its stack{blade}"
        );
        Told::new(format!("line {line}"), fault, cure)
    })
}
