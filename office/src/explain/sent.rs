//! The text sent: its lines, their numbers, and which line may stand where.

use crate::columns::{group, COLUMNS};
use crate::job::Job;
use crate::listing::Listing;
use crate::plan;

/// What may stand on a line: the kinds, and the running number if the kind has one.
#[derive(Debug, Clone, PartialEq, Eq)]
pub struct Expected {
    pub kinds: Vec<usize>,
    pub running: Option<usize>,
}

/// A text as lines, without their byte 10.
pub struct Sent<'a> {
    text: &'a [u8],
    lines: Vec<&'a [u8]>,
}

impl<'a> Sent<'a> {
    /// Parts a text into lines; bytes after the last byte 10 are a line too.
    pub fn of(text: &'a [u8]) -> Sent<'a> {
        let mut lines: Vec<&[u8]> = text.split(|&byte| byte == b'\n').collect();
        if lines.last() == Some(&&[][..]) {
            lines.pop();
        }
        Sent { text, lines }
    }

    /// The number of lines.
    pub fn count(&self) -> usize {
        self.lines.len()
    }

    /// Whether the last line ends with byte 10.
    pub fn ended(&self) -> bool {
        self.text.ends_with(b"\n")
    }

    /// The bytes of a line, counted from 1.
    pub fn line(&self, number: usize) -> Option<&'a [u8]> {
        self.lines.get(number.checked_sub(1)?).copied()
    }

    /// The numbers of a line that is of the form: the kind first.
    pub fn numbers(&self, number: usize) -> Option<Vec<usize>> {
        self.line(number)?.chunks(COLUMNS).map(group).collect()
    }

    /// The kind of a line: the number in its first nine columns.
    pub fn kind(&self, number: usize) -> Option<usize> {
        group(self.line(number)?.get(..COLUMNS)?)
    }

    /// A number of line 1, or 0 where it has none.
    fn of_head(&self, place: usize) -> usize {
        self.numbers(1)
            .and_then(|numbers| numbers.get(place).copied())
            .unwrap_or(0)
    }

    /// The number of board sizes that line 1 announces.
    pub fn sizes(&self) -> usize {
        self.of_head(3)
    }

    /// The number of item types that line 1 announces.
    pub fn types(&self) -> usize {
        self.of_head(4)
    }

    /// The first line after the job's.
    pub fn body(&self) -> usize {
        self.sizes().saturating_add(self.types()).saturating_add(2)
    }

    /// Whether this is a fold text: a line of kind 7 follows the job.
    pub fn is_fold(&self) -> bool {
        self.kind(self.body()) == Some(7)
    }

    /// The line of kind 4, if there is one.
    pub fn price_head(&self) -> Option<usize> {
        (self.body()..=self.count()).find(|&line| self.kind(line) == Some(4))
    }

    /// What may stand on a line, by the lines before it.
    pub fn expected(&self, line: usize) -> Expected {
        let one = |kind, running| Expected {
            kinds: vec![kind],
            running: Some(running),
        };
        let any = |kinds: &[usize]| Expected {
            kinds: kinds.to_vec(),
            running: None,
        };
        let [head, sizes] = [self.price_head().unwrap_or(usize::MAX), self.sizes()];
        match line {
            // There is no line 0, and nothing may stand on it.
            0 => any(&[]),
            1 => any(&[1]),
            _ if line - 2 < sizes => one(10, line - 2),
            _ if line < self.body() => one(2, line - 1 - sizes),
            _ if self.is_fold() => any(&[7]),
            _ if line <= head => any(&[3, 4]),
            _ => {
                let announced = self.numbers(head).unwrap_or_default();
                let [items, plates] =
                    [2, 3].map(|place| announced.get(place).copied().unwrap_or(0));
                match line - head {
                    after if after <= items => one(5, after),
                    after if after - items <= plates => one(6, sizes + after - items - 1),
                    _ => any(&[]),
                }
            }
        }
    }

    /// The job, whether admitted or not.
    pub fn job(&self) -> Option<Job> {
        Job::of_lines(std::str::from_utf8(self.text).ok()?).ok()
    }

    /// The job and its listing.
    pub fn listing(&self) -> Option<(Job, Listing)> {
        let job = self.job()?;
        let listing = Listing::of(&job).ok()?;
        Some((job, listing))
    }

    /// The counts of the plan lines.
    pub fn counts(&self, job: &Job, listing: &Listing) -> Option<Vec<usize>> {
        plan::of_text(std::str::from_utf8(self.text).ok()?, job, listing).ok()
    }
}
