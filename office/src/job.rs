//! The job: board sizes, blade, item types and stage mode, read from lines of kinds 1, 10 and 2, or from
//! a table with names.

mod lines;
mod table;

use crate::columns::{line, thousands};
pub use table::{csv, is_table};

/// The longest side of a board or an item, in millimetres.
pub const MOST_SIDE: usize = 10_000;
/// The widest blade, in millimetres.
pub const MOST_BLADE: usize = 20;
/// The most board sizes of a job.
pub const MOST_SIZES: usize = 6;
/// The highest cost of a board.
pub const MOST_COST: usize = 999;
/// The most item types of a job.
pub const MOST_TYPES: usize = 40;
/// The most pieces of a job, a plan or a set of layouts.
pub const MOST_PIECES: usize = 4_000;

/// The four modes: name, stages and whether they are exact.
pub const MODES: [(&str, usize, bool); 4] = [
    ("2E", 2, true),
    ("2N", 2, false),
    ("3E", 3, true),
    ("3N", 3, false),
];

/// A board size: its sides, and what a board of it costs.
#[derive(Debug, Clone, Copy, PartialEq, Eq)]
pub struct Size {
    pub width: usize,
    pub height: usize,
    pub cost: usize,
}

impl Size {
    /// The size in words, as "9 by 7".
    pub fn words(&self) -> String {
        format!("{} by {}", self.width, self.height)
    }
}

/// An item type; with leave it may be turned by 90 degrees.
#[derive(Debug, Clone, Copy, PartialEq, Eq)]
pub struct Item {
    pub width: usize,
    pub height: usize,
    pub demand: usize,
    pub leave: bool,
}

impl Item {
    /// Width and height as the item lies.
    pub fn sides(&self, turned: bool) -> [usize; 2] {
        match turned {
            true => [self.height, self.width],
            false => [self.width, self.height],
        }
    }

    /// Whether the item may lie turned: it has leave and is not square.
    pub fn turns(&self) -> bool {
        self.leave && self.width != self.height
    }
}

/// A job: stage mode, board sizes from 0, width of the blade and item types; item type i stands at
/// place i - 1, and so does its name where the job has names.
#[derive(Debug, Clone, PartialEq, Eq)]
pub struct Job {
    pub stages: usize,
    pub exact: bool,
    pub sizes: Vec<Size>,
    pub blade: usize,
    pub items: Vec<Item>,
    pub names: Vec<String>,
}

impl Job {
    /// The name of an item type, which is empty where it has none. The saw's texts have no names.
    pub fn name(&self, item_type: usize) -> &str {
        self.names.get(item_type - 1).map_or("", String::as_str)
    }

    /// An item type in words, as "item type 3" or "item type 3 (shelf)".
    pub fn type_words(&self, item_type: usize) -> String {
        match self.name(item_type) {
            "" => format!("item type {item_type}"),
            name => format!("item type {item_type} ({name})"),
        }
    }

    /// The item type with this number, from 1.
    pub fn item(&self, item_type: usize) -> Item {
        self.items[item_type - 1]
    }

    /// Width and height of an item type as it lies.
    pub fn sides(&self, item_type: usize, turned: bool) -> [usize; 2] {
        self.item(item_type).sides(turned)
    }

    /// Whether an item type fits some size in a position in which it may lie.
    pub fn fits(&self, item_type: usize) -> bool {
        let item = self.item(item_type);
        self.sizes.iter().any(|size| fits_size(&item, size))
    }

    /// The line of an item type: those of the job's head and sizes stand before it.
    pub fn line_of(&self, item_type: usize) -> usize {
        1 + self.sizes.len() + item_type
    }

    /// How many lines of kinds 1, 10 and 2 the job has.
    pub fn lines(&self) -> usize {
        self.line_of(self.items.len())
    }

    /// The sizes in words, as "9 by 7, 9 by 3".
    pub fn sizes_words(&self) -> String {
        let sizes: Vec<String> = self.sizes.iter().map(Size::words).collect();
        sizes.join(", ")
    }

    /// Whether cuts are made in two stages.
    pub fn two_stage(&self) -> bool {
        self.stages == 2
    }

    /// The stage mode as it is named: 2E, 2N, 3E or 3N.
    pub fn mode(&self) -> String {
        let exact = if self.exact { 'E' } else { 'N' };
        format!("{}{exact}", self.stages)
    }

    /// The job as lines of kinds 1, 10 and 2.
    pub fn text(&self) -> String {
        let exact = usize::from(self.exact);
        let first = [
            1,
            self.stages,
            exact,
            self.sizes.len(),
            self.items.len(),
            self.blade,
        ];
        let mut text = line(&first);
        for (number, size) in self.sizes.iter().enumerate() {
            text.push_str(&line(&[10, number, size.width, size.height, size.cost]));
        }
        for (item_type, item) in (1..).zip(&self.items) {
            let leave = usize::from(item.leave);
            let numbers = [2, item_type, item.width, item.height, item.demand, leave];
            text.push_str(&line(&numbers));
        }
        text
    }

    /// Reads a job, or the job at the beginning of a whole text for the saw or the fold program; nothing
    /// else may follow its lines. Numbers may stand with any blanks between them, and blank lines and
    /// remarks anywhere. A text that does not begin with a number is a table. An error names the line and
    /// says what is wrong.
    pub fn read(text: &str) -> Result<Job, String> {
        let job = Job::read_large(text)?;
        job.few_enough()?;
        Ok(job)
    }

    /// The same, whatever the demands add up to.
    pub fn read_large(text: &str) -> Result<Job, String> {
        let job = match is_table(text) {
            true => table::read(text)?,
            false => {
                let job = Job::of_lines(text)?;
                job.followed(text)?;
                job
            }
        };
        job.all_fit()?;
        Ok(job)
    }

    /// Every item fits some size as it may lie.
    fn all_fit(&self) -> Result<(), String> {
        for (item_type, item) in (1..).zip(&self.items) {
            if !self.fits(item_type) {
                let turned = match item.leave {
                    true => "turned or not",
                    false => "and has no leave to be turned",
                };
                return Err(format!(
                    "{} is {} by {} and fits no board ({}), {turned}",
                    self.type_words(item_type),
                    item.width,
                    item.height,
                    self.sizes_words()
                ));
            }
        }
        Ok(())
    }

    /// The demands added up.
    pub fn demands(&self) -> usize {
        self.items.iter().map(|item| item.demand).sum()
    }

    /// The demands add up to at most 4,000.
    fn few_enough(&self) -> Result<(), String> {
        let demands = self.demands();
        match demands <= MOST_PIECES {
            true => Ok(()),
            false => Err(format!(
                "the demands add up to {}; at most {} are allowed, so split the job (office split)",
                thousands(demands),
                thousands(MOST_PIECES)
            )),
        }
    }
}

/// The stages of a mode and whether it is exact, by its name in letters of any case.
pub(crate) fn mode_named(name: &str) -> Result<(usize, bool), String> {
    let named = |(known, ..): &&(&str, usize, bool)| known.eq_ignore_ascii_case(name);
    let found = MODES.iter().find(named);
    let fault = || format!("mode is \"{name}\"; it must be 2E, 2N, 3E or 3N");
    found
        .map(|&(_, stages, exact)| (stages, exact))
        .ok_or_else(fault)
}

/// An error in a line.
pub(crate) fn in_line(line: usize) -> impl Fn(String) -> String {
    move |fault| format!("line {line}: {fault}")
}

/// Whether an item type fits a size in a position in which it may lie.
pub fn fits_size(item: &Item, size: &Size) -> bool {
    let fits = |turned| {
        let [width, height] = item.sides(turned);
        width <= size.width && height <= size.height
    };
    fits(false) || (item.turns() && fits(true))
}

/// A size of these numbers, each within its limits.
fn size_of([width, height, cost]: [usize; 3]) -> Result<Size, String> {
    within("W", width, 1, MOST_SIDE)?;
    within("H", height, 1, MOST_SIDE)?;
    within("cost", cost, 1, MOST_COST)?;
    Ok(Size {
        width,
        height,
        cost,
    })
}

/// An item type of these numbers, each within its limits.
fn item_of([width, height, demand, leave]: [usize; 4]) -> Result<Item, String> {
    within("width", width, 1, MOST_SIDE)?;
    within("height", height, 1, MOST_SIDE)?;
    within("demand", demand, 1, MOST_PIECES)?;
    within("leave", leave, 0, 1)?;
    Ok(Item {
        width,
        height,
        demand,
        leave: leave == 1,
    })
}

/// An error unless the number is within its limits.
fn within(name: &str, number: usize, least: usize, most: usize) -> Result<(), String> {
    match (least..=most).contains(&number) {
        true => Ok(()),
        false => Err(format!(
            "{name} is {}; it must be from {} to {}",
            thousands(number),
            thousands(least),
            thousands(most)
        )),
    }
}

#[cfg(test)]
pub mod tests;
