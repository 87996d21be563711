//! The words of demand 3, written a second time and plainly: rules, positions, rectangles.

use reference::{Board, Job, Mode, Position, Strip};

/// The width and height of an item as it lies.
fn sides(job: &Job, position: Position) -> (u16, u16) {
    let item = &job.items[usize::from(position.item) - 1];
    match position.turned {
        true => (item.height, item.width),
        false => (item.width, item.height),
    }
}

/// Whether an item may lie so.
fn permitted(job: &Job, position: Position) -> bool {
    let item = &job.items[usize::from(position.item) - 1];
    !position.turned || (item.leave && item.width != item.height)
}

/// A stack's width and height; the blade stands between its items and is no part of the width.
fn stack_sides(job: &Job, stack: &[Position]) -> (u16, u16) {
    let mut sides = (0, 0);
    for (place, &item) in stack.iter().enumerate() {
        let (width, height) = self::sides(job, item);
        sides.0 = sides.0.max(width);
        sides.1 += if place == 0 {
            height
        } else {
            job.blade + height
        };
    }
    sides
}

/// A strip's width and height; the blade stands between its stacks.
fn strip_sides(job: &Job, strip: &Strip) -> (u16, u16) {
    let mut sides = (0, 0);
    for (place, stack) in strip.iter().enumerate() {
        let (width, height) = stack_sides(job, stack);
        sides.0 += if place == 0 { width } else { job.blade + width };
        sides.1 = sides.1.max(height);
    }
    sides
}

/// Board, size, strip, stack, place, type, x, y, turn.
pub type Line = [u16; 9];

/// Whether a strip keeps the stage rule.
fn stage_rule(job: &Job, strip: &Strip) -> bool {
    let high = |item: &Position| sides(job, *item).1;
    let wide = |item: &Position| sides(job, *item).0;
    let (_, height) = strip_sides(job, strip);
    let all_single = strip.iter().all(|stack| stack.len() == 1);
    let led = strip
        .iter()
        .any(|stack| stack.len() == 1 && high(&stack[0]) == height);
    let one_height = strip
        .iter()
        .flatten()
        .all(|item| high(item) == high(&strip[0][0]));
    let one_width = strip
        .iter()
        .all(|stack| stack.iter().all(|item| wide(item) == wide(&stack[0])));
    match job.mode {
        Mode::TwoExact => all_single && one_height,
        Mode::TwoNonExact => all_single,
        Mode::ThreeExact => led && one_width,
        Mode::ThreeNonExact => led,
    }
}

/// Whether a set keeps the layout rules, turns no piece without leave and leaves nothing empty.
pub fn keeps_rules(job: &Job, set: &[Board]) -> bool {
    set.iter().all(
        |Board {
             size,
             strips: board,
         }| {
            let Some(size) = job.sizes.get(usize::from(*size)) else {
                return false;
            };
            let filled = !board.is_empty()
                && board.iter().all(|strip| !strip.is_empty())
                && board.iter().flatten().all(|stack| !stack.is_empty());
            let heights: u16 = board.iter().map(|strip| strip_sides(job, strip).1).sum();
            let gaps = job.blade * (board.len().max(1) as u16 - 1);
            let strip_fits = |strip: &Strip| strip_sides(job, strip).0 <= size.width;
            let mut pieces = board.iter().flatten().flatten();
            filled
                && pieces.all(|&piece| permitted(job, piece))
                && board.iter().all(|strip| stage_rule(job, strip))
                && board.iter().all(strip_fits)
                && heights + gaps <= size.height
        },
    )
}

/// The nine numbers of each item of a set, x, y and turn included.
pub fn lines(job: &Job, set: &[Board]) -> Vec<Line> {
    let mut lines = Vec::new();
    for (
        b,
        Board {
            size,
            strips: board,
        },
    ) in set.iter().enumerate()
    {
        for (s, strip) in board.iter().enumerate() {
            let strips = board[..s].iter();
            let y: u16 = strips
                .map(|below| strip_sides(job, below).1 + job.blade)
                .sum();
            for (k, stack) in strip.iter().enumerate() {
                let stacks = strip[..k].iter();
                let x: u16 = stacks
                    .map(|before| stack_sides(job, before).0 + job.blade)
                    .sum();
                for (p, &item) in stack.iter().enumerate() {
                    let items = stack[..p].iter();
                    let below: u16 = items.map(|&item| sides(job, item).1 + job.blade).sum();
                    let [b, s, k, p] = [b, s, k, p].map(|index| index as u16 + 1);
                    let turn = u16::from(item.turned);
                    lines.push([b, *size, s, k, p, item.item, x, y + below, turn]);
                }
            }
        }
    }
    lines
}

/// The set that lines describe, which must be in turn from 1, all lines of a board with its size.
pub fn set_in_turn(lines: &[Line]) -> Vec<Board> {
    let mut set: Vec<Board> = Vec::new();
    for &[b, size, s, k, p, item, _, _, turn] in lines {
        let [b, s, k, p] = [b, s, k, p].map(usize::from);
        if p == 1 && k == 1 && s == 1 {
            set.push(Board {
                size,
                strips: vec![],
            });
        }
        let boards = set.len();
        assert_eq!(set[boards - 1].size, size);
        let board = &mut set[boards - 1].strips;
        if p == 1 && k == 1 {
            board.push(vec![]);
        }
        let strips = board.len();
        let strip = &mut board[strips - 1];
        if p == 1 {
            strip.push(vec![]);
        }
        let stacks = strip.len();
        strip[stacks - 1].push(Position {
            item,
            turned: turn == 1,
        });
        assert_eq!(
            [b, s, k, p],
            [boards, strips, stacks, strip[stacks - 1].len()]
        );
    }
    set
}

/// Every rectangle lies inside its board, by the size that its own line names, and any two on one board are at least the blade apart
/// across or at least the blade apart upwards.
pub fn rectangles_apart(job: &Job, lines: &[Line]) {
    let edges = |line: &Line| {
        let position = Position {
            item: line[5],
            turned: line[8] == 1,
        };
        let (width, height) = sides(job, position);
        let (x, y) = (line[6], line[7]);
        (x, y, x + width, y + height)
    };
    for (index, line) in lines.iter().enumerate() {
        let (x, y, x_end, y_end) = edges(line);
        let size = &job.sizes[usize::from(line[1])];
        assert!(x_end <= size.width && y_end <= size.height);
        for other in &lines[..index] {
            let (ox, oy, ox_end, oy_end) = edges(other);
            let b = job.blade;
            let across = x_end + b <= ox || ox_end + b <= x;
            let upwards = y_end + b <= oy || oy_end + b <= y;
            let apart = across || upwards || other[0] != line[0];
            assert!(apart, "{line:?} is too near to {other:?}");
        }
    }
}

/// How often each type lies in the lines.
pub fn laid(job: &Job, lines: &[Line]) -> Vec<u32> {
    let mut laid = vec![0; job.items.len()];
    for line in lines {
        laid[usize::from(line[5]) - 1] += 1;
    }
    laid
}

/// How often each type lies in the lines unturned, and how often turned.
pub fn laid_in_turns(job: &Job, lines: &[Line]) -> Vec<[u32; 2]> {
    let mut laid = vec![[0; 2]; job.items.len()];
    for line in lines {
        laid[usize::from(line[5]) - 1][usize::from(line[8])] += 1;
    }
    laid
}

/// How often counts cut each type unturned, and how often turned, by the cuts' item words.
pub fn cut_in_turns(job: &Job, cuts: &[[u16; 4]], counts: &[u16]) -> Vec<[u32; 2]> {
    let mut cut_in_turns = vec![[0; 2]; job.items.len()];
    for (cut, &count) in cuts.iter().zip(counts) {
        let [item, turn] = [cut[1] / 2, cut[1] % 2].map(usize::from);
        cut_in_turns[item - 1][turn] += u32::from(count);
    }
    cut_in_turns
}

/// Whether each type lies there at least as often as demanded.
pub fn meets_demands(job: &Job, laid: &[u32]) -> bool {
    (job.items.iter().zip(laid)).all(|(item, &count)| count >= u32::from(item.demand))
}

/// How many boards of each size there are in the lines, and that their sizes never fall from board to
/// board where that is asked.
pub fn boards_of_sizes(job: &Job, lines: &[Line], rising: bool) -> Vec<u32> {
    let mut boards = vec![0; job.sizes.len()];
    let mut last = 0;
    for line in lines.iter().filter(|line| line[2..5] == [1, 1, 1]) {
        boards[usize::from(line[1])] += 1;
        assert!(!rising || last <= line[1]);
        last = line[1];
    }
    boards
}

/// How many boards of each size counts open, by the cuts' plates.
pub fn boards_of_counts(job: &Job, cuts: &[[u16; 4]], counts: &[u16]) -> Vec<u32> {
    let mut boards = vec![0; job.sizes.len()];
    for (cut, &count) in cuts.iter().zip(counts) {
        if let Some(boards) = boards.get_mut(usize::from(cut[0])) {
            *boards += u32::from(count);
        }
    }
    boards
}

/// The cost of so many boards of each size.
pub fn cost_of(job: &Job, boards: &[u32]) -> u32 {
    let mut cost = 0;
    for (size, &many) in job.sizes.iter().zip(boards) {
        cost += u32::from(size.cost) * many;
    }
    cost
}
