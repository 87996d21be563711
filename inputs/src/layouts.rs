//! Sets of layouts from the layout rules, and broken ones.

use crate::missing::Missing;
use crate::random::Random;
use reference::layout::{keeps_rules, placements};
use reference::{Board, Job, Placement, Position, Strip};

/// A set of layouts that keeps the rules and meets the demands, on boards of any sizes in any order.
pub fn random_set(random: &mut Random, job: &Job) -> Vec<Board> {
    let mut missing = Missing::of(job);
    let mut set = Vec::new();
    while !missing.is_none() || random.once_in(6) {
        let item = missing.pick(random);
        let (size, item) = random_start(random, job, item);
        missing.take(item.item);
        let mut board = Board {
            size,
            strips: vec![vec![vec![item]]],
        };
        for _ in 0..random.below(24) {
            let item = missing.pick(random);
            let (_, item) = random_start(random, job, item);
            let mut grown = board.clone();
            grow(random, &mut grown.strips, item);
            if keeps_rules(job, &grown) {
                board = grown;
                missing.take(item.item);
            }
        }
        set.push(board);
    }
    set
}

/// Some size, and an item type in some position that is permitted and fits it.
fn random_start(random: &mut Random, job: &Job, item: u16) -> (u16, Position) {
    let mut fitting = Vec::new();
    for (number, size) in (0..).zip(&job.sizes) {
        let fits = |position: &Position| size.fits(job.sides(*position));
        let positions = job.positions_of(item).filter(fits);
        fitting.extend(positions.map(|position| (number, position)));
    }
    random.pick(&fitting)
}

/// Puts an item into a stack, or as a stack into a strip, or as a strip on the board.
fn grow(random: &mut Random, board: &mut Vec<Strip>, item: Position) {
    let which = random.below(board.len());
    let strip = &mut board[which];
    match random.below(4) {
        0 | 1 => {
            let which = random.below(strip.len());
            let stack = &mut strip[which];
            stack.insert(random.below(stack.len() + 1), item);
        }
        2 => strip.insert(random.below(strip.len() + 1), vec![item]),
        _ => board.insert(random.below(board.len() + 1), vec![vec![item]]),
    }
}

/// The layout words of a set; in a broken one an item more is put anywhere, or the gaps are wider or
/// narrower than the blade, or a board has another size, or one of its lines names another.
pub fn random_layouts(random: &mut Random, job: &Job, broken: bool) -> Vec<u16> {
    let mut set = random_set(random, job);
    if !broken {
        return words_of_lines(&placements(job, &set));
    }
    if random.once_in(3) {
        return words_of_lines(&placements(&with_other_gaps(random, job), &set));
    }
    if random.once_in(3) {
        return words_of_lines(&with_other_size(random, job, set));
    }
    grow_anywhere(random, job, &mut set);
    words_of_lines(&placements(job, &set))
}

/// The lines of a set of which a board, or a single line, has another size, one of the job's or the
/// one after the last.
fn with_other_size(random: &mut Random, job: &Job, mut set: Vec<Board>) -> Vec<Placement> {
    let size = random.between(0, job.sizes.len() as u16);
    if random.once_in(2) {
        let board = random.below(set.len());
        set[board].size = size;
        return placements(job, &set);
    }
    let mut lines = placements(job, &set);
    let line = random.below(lines.len());
    lines[line].size = size;
    lines
}

/// The job with a blade that is a little wider or narrower, or has no width.
fn with_other_gaps(random: &mut Random, job: &Job) -> Job {
    let blade = job.blade;
    Job {
        blade: random.pick(&[blade + 1, blade + 2, blade.saturating_sub(1), 0]),
        ..job.clone()
    }
}

/// Puts an item of any type into any board of a set, whatever the rules are; now and then it is
/// turned, whether or not it may be.
pub fn grow_anywhere(random: &mut Random, job: &Job, set: &mut [Board]) {
    let board = random.below(set.len());
    let item = random.between(1, job.items.len() as u16);
    let positions: Vec<Position> = job.positions_of(item).collect();
    let position = match random.once_in(6) {
        true => Position::turned(item),
        false => random.pick(&positions),
    };
    grow(random, &mut set[board].strips, position);
}

/// Layout words of lines.
pub fn words_of_lines(lines: &[Placement]) -> Vec<u16> {
    lines.iter().flat_map(Placement::words).collect()
}
