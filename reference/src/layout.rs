//! Layouts: boards of strips of stacks of items, their measures, rules and item positions
//! (document 01, "Layouts and folding", first paragraph; document 02, One, Four and Six).

use crate::job::Job;
use crate::limits::{COORDINATE, RUNNING, TURN};
use crate::mode::Mode;
use crate::plan::Outlay;
use crate::position::Position;

/// Item types in their positions, from the bottom.
pub type Stack = Vec<Position>;
/// Stacks from the left.
pub type Strip = Vec<Stack>;

/// A board of a size: strips from the bottom.
#[derive(Debug, Clone, PartialEq, Eq, Hash)]
pub struct Board {
    pub size: u16,
    pub strips: Vec<Strip>,
}

/// Numbers of a line of kind 7 after the kind, and words of a placement.
pub const PLACEMENT_NUMBERS: usize = 9;

/// An item's board and its size, strip, stack and place, its type and turn, and x and y: the nine
/// numbers of a line of kind 7 after the kind, of which the turn is the last.
#[derive(Debug, Clone, Copy, PartialEq, Eq, Hash)]
pub struct Placement {
    pub board: u16,
    pub size: u16,
    pub strip: u16,
    pub stack: u16,
    pub place: u16,
    pub position: Position,
    pub x: u16,
    pub y: u16,
}

impl Placement {
    /// The placement of these nine numbers, if each is within its limits for the sizes and item types
    /// of a job.
    pub fn from_numbers(numbers: [u32; PLACEMENT_NUMBERS], job: &Job) -> Option<Placement> {
        let [board, size, strip, stack, place, item, x, y, turn] = numbers;
        let turns = [board, strip, stack, place];
        let within = turns.iter().all(|number| RUNNING.contains(number))
            && (0..job.sizes.len() as u32).contains(&size)
            && (1..=job.items.len() as u32).contains(&item)
            && COORDINATE.contains(&x)
            && COORDINATE.contains(&y)
            && TURN.contains(&turn);
        within.then(|| Placement::from_words(numbers.map(|number| number as u16)))
    }

    /// The placement of nine words.
    pub fn from_words(words: [u16; PLACEMENT_NUMBERS]) -> Placement {
        let [board, size, strip, stack, place, item, x, y, turn] = words;
        Placement {
            board,
            size,
            strip,
            stack,
            place,
            position: Position {
                item,
                turned: turn == 1,
            },
            x,
            y,
        }
    }

    /// The nine words of a placement.
    pub fn words(&self) -> [u16; PLACEMENT_NUMBERS] {
        let Position { item, .. } = self.position;
        let turn = self.position.turn();
        let [board, size] = [self.board, self.size];
        let [strip, stack, place] = [self.strip, self.stack, self.place];
        [board, size, strip, stack, place, item, self.x, self.y, turn]
    }
}

/// Lengths in a row with the blade between each two neighbours: not before the first and not after
/// the last.
fn with_gaps(job: &Job, lengths: impl Iterator<Item = u32>) -> u32 {
    let blade = u32::from(job.blade);
    let row = lengths.reduce(|row, length| row + blade + length);
    row.unwrap_or(0)
}

/// A stack's width: its widest item.
pub fn stack_width(job: &Job, stack: &[Position]) -> u32 {
    let widths = stack.iter().map(|&item| u32::from(job.sides(item).width));
    widths.max().unwrap_or(0)
}

/// A stack's height: its items' heights and the gaps between them.
pub fn stack_height(job: &Job, stack: &[Position]) -> u32 {
    let heights = stack.iter().map(|&item| u32::from(job.sides(item).height));
    with_gaps(job, heights)
}

/// A strip's width: its stacks' widths and the gaps between them.
pub fn strip_width(job: &Job, strip: &[Stack]) -> u32 {
    with_gaps(job, strip.iter().map(|stack| stack_width(job, stack)))
}

/// A strip's height: that of its highest stack.
pub fn strip_height(job: &Job, strip: &[Stack]) -> u32 {
    let heights = strip.iter().map(|stack| stack_height(job, stack));
    heights.max().unwrap_or(0)
}

/// The height of strips one above the other: their heights and the gaps between them.
pub fn board_height(job: &Job, strips: &[Strip]) -> u32 {
    with_gaps(job, strips.iter().map(|strip| strip_height(job, strip)))
}

/// The place in its strip of the leftmost stack that is a single item of the strip's height.
pub fn leading_stack(job: &Job, strip: &[Stack]) -> Option<usize> {
    let height = strip_height(job, strip);
    strip
        .iter()
        .position(|stack| stack.len() == 1 && stack_height(job, stack) == height)
}

/// Whether a strip keeps the rule of the job's mode. Two-stage: each stack is one item, in 2E
/// all equally high. Three-stage: some stack is a single item of the strip's height, in 3E the
/// items of each stack are equally wide.
pub fn keeps_stage_rule(job: &Job, strip: &[Stack]) -> bool {
    let height = strip_height(job, strip);
    let single = |stack: &Stack| stack.len() == 1;
    let as_high_as_strip = |stack: &Stack| stack_height(job, stack) == height;
    let one_width = |stack: &Stack| {
        let width = stack_width(job, stack);
        let same = |&item: &Position| u32::from(job.sides(item).width) == width;
        stack.iter().all(same)
    };
    match job.mode {
        Mode::TwoExact => strip.iter().all(single) && strip.iter().all(as_high_as_strip),
        Mode::TwoNonExact => strip.iter().all(single),
        Mode::ThreeExact => leading_stack(job, strip).is_some() && strip.iter().all(one_width),
        Mode::ThreeNonExact => leading_stack(job, strip).is_some(),
    }
}

/// Whether a board keeps all layout rules of the job's mode: its size is one of the job's, no list
/// is empty, every item is of a type of the job and turned only with leave and if not square, each strip keeps the stage rule,
/// and with the gaps no strip is wider than the board's own size and the strips together are no higher.
pub fn keeps_rules(job: &Job, board: &Board) -> bool {
    let Some(size) = job.sizes.get(usize::from(board.size)) else {
        return false;
    };
    let known = |&position: &Position| {
        let types = 1..=job.items.len();
        types.contains(&usize::from(position.item)) && job.permits(position)
    };
    let full = |strip: &Strip| {
        let stack_full = |stack: &Stack| !stack.is_empty() && stack.iter().all(known);
        !strip.is_empty() && strip.iter().all(stack_full)
    };
    let fits = |strip: &Strip| strip_width(job, strip) <= u32::from(size.width);
    let strips = &board.strips;
    !strips.is_empty()
        && strips.iter().all(full)
        && strips.iter().all(|strip| keeps_stage_rule(job, strip))
        && strips.iter().all(fits)
        && board_height(job, strips) <= u32::from(size.height)
}

/// What a set of layouts takes from stock: its boards, and their cost by the size of each.
pub fn outlay(job: &Job, set: &[Board]) -> Outlay {
    let mut boards = vec![0; job.sizes.len()];
    for board in set {
        boards[usize::from(board.size)] += 1;
    }
    Outlay::of(job, &boards)
}

/// The placements of a set of layouts whose strips lie on their boards: board, strip, stack and
/// place in turn from 1; x the widths of the stacks before, y the strips below plus the items
/// below in the stack, with the blade after each of them.
pub fn placements(job: &Job, set: &[Board]) -> Vec<Placement> {
    let blade = u32::from(job.blade);
    let mut placed = Vec::new();
    for (board_number, board) in (1..).zip(set) {
        let mut below = 0;
        for (strip_number, strip) in (1..).zip(&board.strips) {
            let mut x = 0;
            for (stack_number, stack) in (1..).zip(strip) {
                let mut y = below;
                for (place, &position) in (1..).zip(stack) {
                    placed.push(Placement {
                        board: board_number,
                        size: board.size,
                        strip: strip_number,
                        stack: stack_number,
                        place,
                        position,
                        x: x as u16,
                        y: y as u16,
                    });
                    y += u32::from(job.sides(position).height) + blade;
                }
                x += stack_width(job, stack) + blade;
            }
            below += strip_height(job, strip) + blade;
        }
    }
    placed
}
