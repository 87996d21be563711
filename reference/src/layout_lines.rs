//! Layout lines: reading them from words, and the layouts row of the table "Where each number is
//! given" (document 01), with the blade between neighbours (document 02, Four) and a size for each
//! board (Six).

use crate::job::Job;
use crate::layout::{
    keeps_stage_rule, placements, strip_height, strip_width, Board, Placement, Strip,
    PLACEMENT_NUMBERS,
};
use crate::limits::MOST_PIECES;
use crate::plan::ensure_demands;
use crate::refusal::{
    ensure, Refusal, NOT_NEXT_IN_TURN, NOT_OF_THE_FORM, OUTSIDE_LIMITS, PAST_THE_BOARD,
    POSITION_WRONG, STAGE_RULE, TOTAL_TOO_HIGH,
};
use crate::size::Size;

/// Reads layout words, nine to a line. A line cut short is 1, naming it; then a value outside
/// its limits is 2, naming its line; then a type turned without leave, or a square one turned, is
/// 19, naming its line.
pub fn lines_of_words(words: &[u16], job: &Job) -> Result<Vec<Placement>, Refusal> {
    let lines = words.chunks_exact(PLACEMENT_NUMBERS);
    ensure(
        lines.remainder().is_empty(),
        NOT_OF_THE_FORM,
        lines.len() + 1,
    )?;
    let mut read = Vec::with_capacity(lines.len());
    for (number, line) in (1..).zip(lines) {
        let numbers = std::array::from_fn(|k| u32::from(line[k]));
        let line = Placement::from_numbers(numbers, job);
        read.push(line.ok_or(Refusal::new(OUTSIDE_LIMITS, number))?);
    }
    for (number, line) in (1..).zip(&read) {
        job.ensure_permitted(line.position, number)?;
    }
    Ok(read)
}

/// The layouts row, over lines that are counted from `first`, and the set that they describe:
/// 10 over 4,000 lines; 15 not the next in turn, or of another size than its board's first line; 16 stage rule; 17 past the board; 18 x or y
/// wrong; then 11, an item type that lies there less often than demanded.
pub fn test(job: &Job, lines: &[Placement], first: usize) -> Result<Vec<Board>, Refusal> {
    ensure(lines.len() <= MOST_PIECES as usize, TOTAL_TOO_HIGH, 0)?;
    for index in 0..lines.len() {
        let in_turn = follows(&lines[..index], &lines[index]);
        ensure(in_turn, NOT_NEXT_IN_TURN, first + index)?;
    }
    let set = set_of(lines);
    let numbered = with_lines(&set, first);
    for &(line, strip) in numbered.iter().flat_map(|(_, strips)| strips) {
        ensure(keeps_stage_rule(job, strip), STAGE_RULE, line)?;
    }
    for (board, strips) in &numbered {
        ensure_inside(job, job.size(board.size), strips)?;
    }
    for (index, (line, true_line)) in lines.iter().zip(placements(job, &set)).enumerate() {
        ensure(*line == true_line, POSITION_WRONG, first + index)?;
    }
    let mut laid = vec![0; job.items.len() + 1];
    for line in lines {
        laid[usize::from(line.position.item)] += 1;
    }
    ensure_demands(job, &laid)?;
    Ok(set)
}

/// Whether a line is the next in turn after the lines before it: the next place, or place 1 of
/// the next stack or the next strip, of the same size, since the board has the size of its first line;
/// or place 1 of the next board, of any size. The first line is 1, 1, 1, 1.
fn follows(before: &[Placement], line: &Placement) -> bool {
    let turn = (line.board, line.strip, line.stack, line.place);
    let Some(last) = before.last() else {
        return turn == (1, 1, 1, 1);
    };
    let on_board = turn == (last.board, last.strip, last.stack, last.place + 1)
        || turn == (last.board, last.strip, last.stack + 1, 1)
        || turn == (last.board, last.strip + 1, 1, 1);
    on_board && line.size == last.size || turn == (last.board + 1, 1, 1, 1)
}

/// The set of layouts that lines in turn describe. x and y play no part.
pub fn set_of(lines: &[Placement]) -> Vec<Board> {
    let mut set: Vec<Board> = Vec::new();
    for line in lines {
        if usize::from(line.board) > set.len() {
            set.push(Board {
                size: line.size,
                strips: Vec::new(),
            });
        }
        let board = set.last_mut().expect("line 1 begins a board");
        if usize::from(line.strip) > board.strips.len() {
            board.strips.push(Strip::new());
        }
        let strips = &mut board.strips;
        let strip = strips.last_mut().expect("a board begins with a strip");
        if usize::from(line.stack) > strip.len() {
            strip.push(Vec::new());
        }
        let stack = strip.last_mut().expect("a strip begins with a stack");
        stack.push(line.position);
    }
    set
}

/// All boards of a set, each as its strips in turn with the number of the first line of each.
fn with_lines(set: &[Board], first: usize) -> Vec<(&Board, Vec<(usize, &Strip)>)> {
    let mut next = first;
    let mut numbered = Vec::with_capacity(set.len());
    for board in set {
        let mut strips = Vec::with_capacity(board.strips.len());
        for strip in &board.strips {
            strips.push((next, strip));
            next += strip.iter().map(Vec::len).sum::<usize>();
        }
        numbered.push((board, strips));
    }
    numbered
}

/// Refuses with 17 the first strip of a board whose stacks reach past the width of the board's size,
/// or whose own top edge lies above its height: the strips below it with the blade after each of
/// them, and its own height.
fn ensure_inside(job: &Job, size: &Size, strips: &[(usize, &Strip)]) -> Result<(), Refusal> {
    let mut below = 0;
    for &(line, strip) in strips {
        let top = below + strip_height(job, strip);
        let inside =
            strip_width(job, strip) <= u32::from(size.width) && top <= u32::from(size.height);
        ensure(inside, PAST_THE_BOARD, line)?;
        below = top + u32::from(job.blade);
    }
    Ok(())
}
