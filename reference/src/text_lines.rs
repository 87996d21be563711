//! Lines of a text: their form, their numbering, and the kinds that both texts begin with
//! (document 01, "Texts"; document 02, One, Four, Five and Six).

use crate::columns::{read_group, COLUMNS};
use crate::job::{Head, Item, Job, HEAD_NUMBERS, ITEM_NUMBERS};
use crate::layout::PLACEMENT_NUMBERS;
use crate::limits::FORBIDDEN_LINE;
use crate::plan_lines::PLAN_NUMBERS;
use crate::refusal::{Refusal, NOT_OF_THE_FORM, OUTSIDE_LIMITS};
use crate::size::{Size, SIZE_NUMBERS};

/// The most numbers after the kind on a line.
pub const MOST_VALUES: usize = PLACEMENT_NUMBERS;

/// A line of the form: its number in the text, its kind, and the numbers after the kind, of which
/// a kind uses as many as it has.
#[derive(Debug, Clone, Copy, PartialEq, Eq)]
pub struct Line {
    pub number: usize,
    pub kind: u32,
    pub values: [u32; MOST_VALUES],
}

impl Line {
    /// The refusal of a value of this line that is outside its limits.
    pub fn outside_limits(&self) -> Refusal {
        Refusal::new(OUTSIDE_LIMITS, self.number)
    }

    /// The refusal of this line for its kind or order.
    pub fn out_of_order(&self) -> Refusal {
        Refusal::new(NOT_OF_THE_FORM, self.number)
    }
}

/// How many numbers follow the kind on a line of that kind; none for a kind that no text has.
fn values_of_kind(kind: u32) -> Option<usize> {
    match kind {
        1 => Some(HEAD_NUMBERS),
        2 => Some(1 + ITEM_NUMBERS),
        3 => Some(PLAN_NUMBERS),
        4 => Some(3),
        5 | 6 => Some(2),
        7 => Some(PLACEMENT_NUMBERS),
        10 => Some(1 + SIZE_NUMBERS),
        _ => None,
    }
}

/// The lines of a text, read one after another.
pub struct Lines<'a> {
    rest: &'a [u8],
    next: usize,
}

impl<'a> Lines<'a> {
    /// The lines of a text, from line 1.
    pub fn new(text: &'a [u8]) -> Self {
        Lines {
            rest: text,
            next: 1,
        }
    }

    /// Whether no byte is left.
    pub fn is_at_end(&self) -> bool {
        self.rest.is_empty()
    }

    /// Reads the next line. It is refused with 1 if it is missing, not of the form, or the
    /// 100,000th.
    pub fn line(&mut self) -> Result<Line, Refusal> {
        let refusal = Refusal::new(NOT_OF_THE_FORM, self.next);
        if self.next == FORBIDDEN_LINE {
            return Err(refusal);
        }
        let (line, length) = read_line(self.rest, self.next).ok_or(refusal)?;
        self.rest = &self.rest[length..];
        self.next += 1;
        Ok(line)
    }

    /// Reads the next line, which must be of this kind.
    pub fn line_of(&mut self, kind: u32) -> Result<Line, Refusal> {
        let line = self.line()?;
        match line.kind == kind {
            true => Ok(line),
            false => Err(line.out_of_order()),
        }
    }

    /// Reads the next line, which must be of this kind and carry this running number first.
    pub fn running_line(&mut self, kind: u32, running: u32) -> Result<Line, Refusal> {
        let line = self.line_of(kind)?;
        match line.values[0] == running {
            true => Ok(line),
            false => Err(line.out_of_order()),
        }
    }

    /// Reads the lines of kinds 1, 10 and 2, with which both texts begin.
    pub fn job(&mut self) -> Result<Job, Refusal> {
        let line = self.line_of(1)?;
        let head = Head::from_numbers(std::array::from_fn(|k| line.values[k]))
            .ok_or(line.outside_limits())?;
        let mut sizes = Vec::with_capacity(usize::from(head.sizes));
        for number in 0..head.sizes {
            let line = self.running_line(10, u32::from(number))?;
            let [_, width, height, cost, ..] = line.values;
            let size = Size::from_numbers([width, height, cost]);
            sizes.push(size.ok_or(line.outside_limits())?);
        }
        let mut items = Vec::with_capacity(usize::from(head.types));
        for number in 1..=head.types {
            let line = self.running_line(2, u32::from(number))?;
            let [_, width, height, demand, leave, ..] = line.values;
            let item = Item::from_numbers([width, height, demand, leave]);
            items.push(item.ok_or(line.outside_limits())?);
        }
        Ok(Job::new(head, sizes, items))
    }
}

/// Reads one line from the front of the bytes, and gives it with its length in bytes: the groups
/// of its kind, the kind itself first, and then byte 10.
fn read_line(bytes: &[u8], number: usize) -> Option<(Line, usize)> {
    let kind = read_group(bytes.get(..COLUMNS)?)?;
    let count = values_of_kind(kind)?;
    let length = COLUMNS * (count + 1);
    let groups = bytes.get(COLUMNS..length)?.chunks_exact(COLUMNS);
    let mut values = [0; MOST_VALUES];
    for (value, group) in values.iter_mut().zip(groups) {
        *value = read_group(group)?;
    }
    let line = Line {
        number,
        kind,
        values,
    };
    (bytes.get(length) == Some(&b'\n')).then_some((line, length + 1))
}
