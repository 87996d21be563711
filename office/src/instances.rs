//! Files of instances, as in data/: lines of a word and its numbers, and the jobs that they give.

use crate::columns::{said, whole};
use crate::job::{in_line, mode_named, Item, Job, Size};
use crate::job::{MODES, MOST_COST, MOST_SIZES, MOST_TYPES};
use reference::instances::read::Instance;

/// Words that say what is expected of a job at the limits, or what a table prints besides.
const LEFT_ALONE: [&str; 5] = ["totals", "listing", "plan", "refusal", "without-limits"];

/// An instance of a table, or a job at the limits, which has its mode, its blade and its sizes.
#[derive(Default)]
struct Read {
    instance: Instance,
    mode: Option<(usize, bool)>,
    blade: usize,
    sizes: Vec<Size>,
}

/// A job and the name of its file, without its end.
#[derive(Debug, Clone, PartialEq, Eq)]
pub struct Named {
    pub name: String,
    pub job: Job,
}

/// What the instances of a file give: the jobs, and how many were left out since an item does not fit
/// or there are too many types.
#[derive(Debug, Default, PartialEq, Eq)]
pub struct Jobs {
    pub jobs: Vec<Named>,
    pub left_out: usize,
}

/// The jobs of a file of instances, each on each of its boards at a cost of 1 and, if there are two to
/// six of them, on all at a cost by area, in each mode, with this blade and this leave. A file of jobs
/// has its own modes, blades and sizes. An error names the line, or two jobs of one name.
pub fn jobs(text: &str, blade: usize, leave: bool) -> Result<Jobs, String> {
    let mut jobs = Jobs::default();
    for read in read(text)? {
        let instance = &read.instance;
        let job = |sizes, (stages, exact), blade| Job {
            stages,
            exact,
            sizes,
            blade,
            items: items(instance, leave),
            names: Vec::new(),
        };
        if let Some(mode) = read.mode {
            let name = instance.name.replace(' ', "-");
            jobs.add(name, job(read.sizes, mode, read.blade))?;
            continue;
        }
        for (on, sizes) in stocks(instance) {
            for (mode, stages, exact) in MODES {
                let name = format!("{}.{on}.{mode}", instance.name);
                jobs.add(name, job(sizes.clone(), (stages, exact), blade))?;
            }
        }
    }
    Ok(jobs)
}

/// The item types of an instance, with or without leave.
fn items(instance: &Instance, leave: bool) -> Vec<Item> {
    let item = |&[width, height, demand]: &[u16; 3]| Item {
        width: width.into(),
        height: height.into(),
        demand: demand.into(),
        leave,
    };
    instance.items.iter().map(item).collect()
}

/// The board sizes that an instance has jobs on, with their part of the jobs' names: each of its boards and,
/// if there are two to six, all of them.
fn stocks(instance: &Instance) -> Vec<(String, Vec<Size>)> {
    let boards = instance.boards().map(|[width, height]| {
        let size = size_of([width, height, 1]);
        (format!("{width}x{height}"), vec![size])
    });
    let mut stocks: Vec<(String, Vec<Size>)> = boards.collect();
    let many = instance.objects.len();
    if (2..=MOST_SIZES).contains(&many) {
        stocks.push((format!("{many}sizes"), by_area(instance)));
    }
    stocks
}

impl Jobs {
    /// Adds a job, unless it has too many types or an item that fits no size, or is there already, as
    /// where an instance has a board twice. Another job of the same name is an error.
    fn add(&mut self, name: String, job: Job) -> Result<(), String> {
        let types = job.items.len();
        if !(1..=MOST_TYPES).contains(&types) || !(1..=types).all(|of| job.fits(of)) {
            self.left_out += 1;
            return Ok(());
        }
        let named = Named { name, job };
        match self.jobs.iter().find(|there| there.name == named.name) {
            Some(there) if *there == named => {}
            Some(Named { name, .. }) => {
                return Err(format!(
                    "two jobs would be named {name}, so that one would be written over the other: give \
                     each instance a name of its own"
                ))
            }
            None => self.jobs.push(named),
        }
        Ok(())
    }
}

/// The object sizes of an instance: the cost is the area, times the cost per unit of area, or the share
/// of the dearest size, which then costs as much as can be.
fn by_area(instance: &Instance) -> Vec<Size> {
    let value = |size: &Size| {
        let sides =
            |cost: &&[u16; 3]| [cost[0], cost[1]].map(usize::from) == [size.width, size.height];
        let unit = instance
            .costs
            .iter()
            .find(sides)
            .map_or(1, |cost| cost[2].into());
        size.width * size.height * unit
    };
    let sizes: Vec<Size> = instance
        .objects
        .iter()
        .map(|&object| size_of(object))
        .collect();
    let dearest = sizes.iter().map(value).max().unwrap_or(1);
    let cost = |size: &Size| match dearest <= MOST_COST {
        true => value(size),
        false => (value(size) * MOST_COST).div_ceil(dearest),
    };
    let with_cost = |size: &Size| Size {
        cost: cost(size),
        ..*size
    };
    sizes.iter().map(with_cost).collect()
}

/// The size of an object.
fn size_of(object: [u16; 3]) -> Size {
    let [width, height, cost] = object.map(usize::from);
    Size {
        width,
        height,
        cost,
    }
}

/// Reads the lines of a file.
fn read(text: &str) -> Result<Vec<Read>, String> {
    let mut all: Vec<Read> = Vec::new();
    for (line, text) in said(text) {
        let (word, rest) = text.trim().split_once(' ').unwrap_or((text.trim(), ""));
        if let "instance" | "job" = word {
            all.push(Read::default());
        }
        let last = all.last_mut().ok_or(format!(
            "line {line}: a file of instances begins with \"instance\" or \"job\" and a name"
        ))?;
        last.take(line, word, rest)?;
    }
    match all.is_empty() {
        true => Err("there is no instance in this file".into()),
        false => Ok(all),
    }
}

impl Read {
    /// Takes in a line.
    fn take(&mut self, line: usize, word: &str, rest: &str) -> Result<(), String> {
        match word {
            "instance" | "job" => self.instance.name = named(rest).map_err(in_line(line))?,
            "board" => {
                let object = sides(line, numbers(line, rest)?)?;
                self.instance.objects.push(object);
                self.sizes.push(size_of([object[0], object[1], 1]));
            }
            "size" => self.sizes.push(size_of(sides(line, numbers(line, rest)?)?)),
            "cost" => {
                let cost = sides(line, numbers(line, rest)?)?;
                at_least_1(line, "cost", cost[2])?;
                self.instance.costs.push(cost);
            }
            "item" => {
                let item = sides(line, numbers(line, rest)?)?;
                at_least_1(line, "demand", item[2])?;
                self.instance.items.push(item);
            }
            "blade" => self.blade = numbers::<1>(line, rest)?[0].into(),
            "mode" => {
                self.mode = Some(mode_named(rest).map_err(in_line(line))?);
            }
            _ if LEFT_ALONE.contains(&word) => {}
            _ => return Err(format!("line {line}: {word} begins no line of such a file")),
        }
        Ok(())
    }
}

/// The name of an instance, which becomes that of files: it may have no letter that parts folders, and
/// does not begin with a dot.
fn named(name: &str) -> Result<String, String> {
    let wrong = |letter: char| letter.is_control() || ['/', '\\', ':'].contains(&letter);
    match name.is_empty() || name.starts_with('.') || name.contains(wrong) {
        false => Ok(name.to_string()),
        true => Err(format!(
            "\"{}\" cannot be the name of a file: it must not be empty, begin with a dot or hold /, \\ \
             or :",
            name.escape_default()
        )),
    }
}

/// The numbers of a line, the first two being sides. Jobs at the limits have numbers that are too large,
/// which the saw refuses; nothing has sides of 0.
fn sides(line: usize, numbers: [u16; 3]) -> Result<[u16; 3], String> {
    at_least_1(line, "width", numbers[0])?;
    at_least_1(line, "height", numbers[1])?;
    Ok(numbers)
}

/// An error if a number of a line is 0.
fn at_least_1(line: usize, name: &str, number: u16) -> Result<(), String> {
    match number {
        0 => Err(format!("line {line}: {name} is 0; it must be 1 at least")),
        _ => Ok(()),
    }
}

/// Just so many numbers. An error names the word that is none.
fn numbers<const N: usize>(line: usize, rest: &str) -> Result<[u16; N], String> {
    let mut read = Vec::new();
    for (column, word) in (2..).zip(rest.split_ascii_whitespace()) {
        let fault = |fault: &str| format!("{word} in line {line}, column {column}, {fault}");
        let number = whole(word).map_err(fault)?;
        read.push(u16::try_from(number).map_err(|_| fault("is too large a number"))?);
    }
    let many = read.len();
    read.try_into()
        .map_err(|_| format!("line {line} has {many} number(s) after its word; it needs {N}"))
}

#[cfg(test)]
mod tests;
