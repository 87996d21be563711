//! Random sets of layouts, made from the layout rules alone.

use super::random::Random;
use reference::{Board, Job, Mode, Position, Size, Strip};

/// How often each type still has to be laid.
struct Missing(Vec<u16>);

impl Missing {
    fn of(job: &Job) -> Missing {
        Missing(job.items.iter().map(|item| item.demand).collect())
    }

    fn is_none(&self) -> bool {
        self.0.iter().all(|&count| count == 0)
    }

    /// A missing type, or any type if none is missing.
    fn pick(&self, random: &mut Random) -> u16 {
        let open: Vec<u16> = (1..)
            .zip(&self.0)
            .filter(|(_, &count)| count > 0)
            .map(|(number, _)| number)
            .collect();
        match open.is_empty() {
            true => random.between(1, self.0.len() as u16),
            false => random.pick(&open),
        }
    }

    fn lay(&mut self, board: &Board) {
        for item in board.strips.iter().flatten().flatten() {
            let count = &mut self.0[usize::from(item.item) - 1];
            *count = count.saturating_sub(1);
        }
    }
}

/// A set that keeps the rules and meets the demands, on boards of any sizes in any order; now and then
/// with more than they ask.
pub fn random_set(random: &mut Random, job: &Job) -> Vec<Board> {
    let mut missing = Missing::of(job);
    let mut set = Vec::new();
    while !missing.is_none() || set.is_empty() || random.once_in(5) {
        let positions: Vec<Position> = job.positions_of(missing.pick(random)).collect();
        let mut leads = Vec::new();
        for (number, size) in (0..).zip(&job.sizes) {
            let fitting = positions.iter().filter(|&&lead| size.fits(job.sides(lead)));
            leads.extend(fitting.map(|&lead| (number, lead)));
        }
        let (size, lead) = random.pick(&leads);
        let board = random_board(random, job, size, lead);
        missing.lay(&board);
        set.push(board);
    }
    set
}

/// A board of a size whose strips come in any order; one of them is led by the given item.
fn random_board(random: &mut Random, job: &Job, number: u16, lead: Position) -> Board {
    let size = &job.sizes[usize::from(number)];
    let mut board = Vec::new();
    let mut room = size.height;
    let mut next = Some(lead);
    while let Some(lead) = next {
        let strip = if job.mode.is_two_stage() {
            two_stage_strip(random, job, size, lead, room)
        } else {
            three_stage_strip(random, job, size, lead)
        };
        let single = strip.iter().map(|stack| job.sides(stack[0]).height);
        let highest = single.max().unwrap().max(job.sides(lead).height);
        room = beyond(job, room, highest);
        board.push(strip);
        next = match random.once_in(6) {
            true => None,
            false => random_item(random, job, size.width, room, None),
        };
    }
    random.shuffle(&mut board);
    Board {
        size: number,
        strips: board,
    }
}

/// The room that is left beyond a length and the blade.
fn beyond(job: &Job, room: u16, length: u16) -> u16 {
    room.saturating_sub(length + job.blade)
}

/// An item in a position that fits into the room and has the given width, if one is given.
fn random_item(
    random: &mut Random,
    job: &Job,
    width: u16,
    height: u16,
    exact_width: Option<u16>,
) -> Option<Position> {
    let fits = |position: &Position| {
        let sides = job.sides(*position);
        let exact = exact_width.is_none_or(|exact| sides.width == exact);
        sides.width <= width && sides.height <= height && exact
    };
    let fitting: Vec<Position> = job.positions().filter(fits).collect();
    (!fitting.is_empty()).then(|| random.pick(&fitting))
}

/// A strip of single items, not higher than the room; in 2E all as high as the leading one.
fn two_stage_strip(
    random: &mut Random,
    job: &Job,
    size: &Size,
    lead: Position,
    room: u16,
) -> Strip {
    let mut strip = vec![vec![lead]];
    let mut width = beyond(job, size.width, job.sides(lead).width);
    while let Some(item) = random_item(random, job, width, room, None) {
        if random.once_in(6) {
            break;
        }
        if job.mode == Mode::TwoExact && job.sides(item).height != job.sides(lead).height {
            continue;
        }
        width = beyond(job, width, job.sides(item).width);
        strip.push(vec![item]);
    }
    random.shuffle(&mut strip);
    strip
}

/// A strip of stacks, none higher than the leading item, which is a stack of its own; in 3E each
/// stack has one width.
fn three_stage_strip(random: &mut Random, job: &Job, size: &Size, lead: Position) -> Strip {
    let mut strip = vec![vec![lead]];
    let height = job.sides(lead).height;
    let mut width = beyond(job, size.width, job.sides(lead).width);
    while let Some(first) = random_item(random, job, width, height, None) {
        if random.once_in(6) {
            break;
        }
        let exact_width = (job.mode == Mode::ThreeExact).then(|| job.sides(first).width);
        let mut stack = vec![first];
        let mut room = beyond(job, height, job.sides(first).height);
        while let Some(item) = random_item(random, job, width, room, exact_width) {
            if random.once_in(6) {
                break;
            }
            room = beyond(job, room, job.sides(item).height);
            stack.push(item);
        }
        random.shuffle(&mut stack);
        let widths = stack.iter().map(|&item| job.sides(item).width);
        width = beyond(job, width, widths.max().unwrap());
        strip.push(stack);
    }
    random.shuffle(&mut strip);
    strip
}
