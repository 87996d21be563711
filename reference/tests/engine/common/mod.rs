//! What the themes share: a fixed generator of numbers, jobs, plans and sets of layouts, lent
//! buffers, and a second, plain writing of the rules to compare with.

pub mod check;
pub mod jobs;
pub mod lent;
pub mod parts;
pub mod plain;
pub mod plans;
pub mod prices;
pub mod random;
pub mod sets;
pub mod texts;

use reference::{Board, Outlay, Position, Refusal, Strip};

/// A strip of unturned items, by their types.
pub fn strip(stacks: &[&[u16]]) -> Strip {
    let stack = |types: &&[u16]| types.iter().map(|&item| Position::unturned(item)).collect();
    stacks.iter().map(stack).collect()
}

/// A board of size 0, of strips of unturned items, by their types.
pub fn board(strips: &[&[&[u16]]]) -> Board {
    board_of(0, strips)
}

/// A board of a size, of strips of unturned items, by their types.
pub fn board_of(size: u16, strips: &[&[&[u16]]]) -> Board {
    Board {
        size,
        strips: strips.iter().map(|stacks| strip(stacks)).collect(),
    }
}

/// The boards and their cost as the answer of a call.
pub fn outlay(boards: u32, cost: u32) -> Result<Outlay, Refusal> {
    Ok(Outlay { boards, cost })
}

/// So many boards at a cost of 1 as the answer of a call.
pub fn boards(boards: u32) -> Result<Outlay, Refusal> {
    outlay(boards, boards)
}

/// A refusal as the answer of a call.
pub fn refused<T>(number: u32, place: u32) -> Result<T, Refusal> {
    Err(Refusal { number, place })
}
