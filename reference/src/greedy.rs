//! Simple ways to a set of layouts: strips filled one after another, highest items first, each board
//! of the size that has most items for its cost and the last of the cheapest that takes the rest; or
//! each item on a board of its own. No part of document 01; they give the tests plans for jobs that are
//! too large to try all.

use crate::job::Job;
use crate::layout::{outlay, Board, Stack, Strip};
use crate::mode::Mode;
use crate::position::{Position, Sides};
use crate::size::Size;
use std::cmp::Reverse;

/// A set of layouts that keeps the rules of an admitted job and meets each demand exactly: of those
/// filled with boards of all sizes and with boards of one size alone, the cheapest, and the first of
/// these.
pub fn set(job: &Job) -> Vec<Board> {
    let all: Vec<u16> = (0..job.sizes.len() as u16).collect();
    let mut best = filled(job, &all).expect("each item fits some size");
    for size in all {
        if let Some(set) = filled(job, &[size]) {
            if outlay(job, &set).cost < outlay(job, &best).cost {
                best = set;
            }
        }
    }
    best
}

/// A set with boards of these sizes, if each item fits one of them.
fn filled(job: &Job, sizes: &[u16]) -> Option<Vec<Board>> {
    let mut missing = Missing::of(job);
    let mut set = Vec::new();
    while let Some((board, left)) = missing.best_board(sizes) {
        set.push(board);
        missing.times = left;
    }
    missing.is_none().then_some(set)
}

/// A set of layouts that has each demanded item of an admitted job on a board of its own, in the
/// first of its positions that fit, on the first size that it fits.
pub fn singles(job: &Job) -> Vec<Board> {
    let mut set = Vec::new();
    for (number, item) in (1..).zip(&job.items) {
        let fitting = job
            .positions_of(number)
            .find_map(|position| Some((job.first_size(position)?, position)));
        let (size, position) = fitting.expect("a position of each item fits some size");
        let board = Board {
            size,
            strips: vec![vec![vec![position]]],
        };
        set.resize(set.len() + usize::from(item.demand), board);
    }
    set
}

/// The items that are still to be laid.
#[derive(Clone)]
struct Missing<'a> {
    job: &'a Job,
    /// Item types in the positions that fit some size, by falling height, and by falling width
    /// among equals.
    order: Vec<Position>,
    /// How often each is missing, by item type from 1.
    times: Vec<u16>,
}

/// What a board is worth: whether nothing is missing after it, the area of its items, its cost.
struct Worth {
    last: bool,
    area: u64,
    cost: u64,
}

impl Worth {
    fn is_above(&self, other: &Worth) -> bool {
        match (self.last, other.last) {
            (true, true) => self.cost < other.cost,
            (false, false) => self.area * other.cost > other.area * self.cost,
            (last, _) => last,
        }
    }
}

impl Missing<'_> {
    fn of(job: &Job) -> Missing<'_> {
        let fitting = job.positions().filter(|&position| job.fits(position));
        let mut order: Vec<Position> = fitting.collect();
        order.sort_by_key(|&position| {
            let Sides { width, height } = job.sides(position);
            Reverse((height, width))
        });
        Missing {
            job,
            order,
            times: job.items.iter().map(|item| item.demand).collect(),
        }
    }

    /// Takes the first missing item of the order that fits.
    fn take(&mut self, fits: impl Fn(Sides) -> bool) -> Option<Position> {
        let missing = |position: Position| self.times[usize::from(position.item) - 1] > 0;
        let mut open = self.order.iter().filter(|&&position| missing(position));
        let &position = open.find(|&&position| fits(self.job.sides(position)))?;
        self.times[usize::from(position.item) - 1] -= 1;
        Some(position)
    }

    /// What is left of a room beyond a length and the blade.
    fn beyond(&self, room: u16, length: u16) -> u16 {
        room.saturating_sub(length + self.job.blade)
    }

    /// Whether nothing is missing.
    fn is_none(&self) -> bool {
        self.times.iter().all(|&times| times == 0)
    }

    /// A board of one of these sizes, and what is missing after it: of those that take all that is
    /// missing the cheapest, and else the one with the largest area of items for its cost; the first
    /// of several. None if no missing item fits any of the sizes.
    fn best_board(&self, sizes: &[u16]) -> Option<(Board, Vec<u16>)> {
        let mut best: Option<(Worth, Board, Vec<u16>)> = None;
        for &number in sizes {
            let size = self.job.size(number);
            let mut rest = self.clone();
            let strips = rest.strips(size);
            let items = strips.iter().flatten().flatten();
            let worth = Worth {
                last: rest.is_none(),
                area: items.map(|&item| self.job.sides(item).area()).sum(),
                cost: u64::from(size.cost),
            };
            let better = best.as_ref().is_none_or(|(than, ..)| worth.is_above(than));
            if worth.area > 0 && better {
                let board = Board {
                    size: number,
                    strips,
                };
                best = Some((worth, board, rest.times));
            }
        }
        best.map(|(_, board, left)| (board, left))
    }

    /// Strips that fill a size, each led by the highest item that the room above allows.
    fn strips(&mut self, size: &Size) -> Vec<Strip> {
        let mut strips = Vec::new();
        let mut room = size.height;
        while let Some(lead) = self.take(|item| item.height <= room && item.width <= size.width) {
            room = self.beyond(room, self.job.sides(lead).height);
            strips.push(self.strip(size, lead));
        }
        strips
    }

    /// A strip as high as its leading item, which is its first stack.
    fn strip(&mut self, size: &Size, lead: Position) -> Strip {
        let job = self.job;
        let Sides { width, height } = job.sides(lead);
        let exact = job.mode == Mode::TwoExact;
        let mut strip = vec![vec![lead]];
        let mut room = self.beyond(size.width, width);
        while let Some(first) = self.take(|item| {
            item.width <= room && item.height <= height && (!exact || item.height == height)
        }) {
            room = self.beyond(room, job.sides(first).width);
            strip.push(self.stack(first, height));
        }
        strip
    }

    /// A stack that is no wider than its first item; in two stages that item alone.
    fn stack(&mut self, first: Position, height: u16) -> Stack {
        let job = self.job;
        let mut stack = vec![first];
        if job.mode.is_two_stage() {
            return stack;
        }
        let width = job.sides(first).width;
        let exact = job.mode == Mode::ThreeExact;
        let mut room = self.beyond(height, job.sides(first).height);
        while let Some(next) = self.take(|item| {
            item.width <= width && item.height <= room && (!exact || item.width == width)
        }) {
            room = self.beyond(room, job.sides(next).height);
            stack.push(next);
        }
        stack
    }
}
