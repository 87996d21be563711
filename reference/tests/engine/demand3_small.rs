//! Demand 3 without chance: all boards and all small plans of a few small jobs, without a blade and
//! with one, on boards of one size (several sizes: `sizes_small`).

use crate::common::boards;
use crate::common::check;
use crate::common::jobs::job_of;
use crate::common::lent::Lent;
use crate::common::plain;
use crate::common::prices::{area_prices, words_of as price_words};
use reference::layout::keeps_rules;
use reference::listing::FULL;
use reference::{Board, Job, Listing, Mode, Position, Stack, Strip};
use std::collections::HashSet;

/// Small boards, the blade, and sides, demand and leave of two item types: without leave, with it,
/// square with it, and of a type that fits the board only turned; the blade narrower than what
/// remains, as wide, and wider.
type Small = ([u16; 2], u16, [[u16; 4]; 2]);
const SMALL: [Small; 24] = [
    ([3, 3], 0, [[1, 2, 1, 0], [2, 1, 1, 0]]),
    ([3, 3], 0, [[1, 3, 1, 0], [1, 1, 1, 0]]),
    ([4, 2], 0, [[2, 2, 1, 0], [1, 1, 1, 0]]),
    ([2, 4], 0, [[2, 1, 1, 0], [1, 2, 1, 0]]),
    ([4, 3], 0, [[2, 3, 1, 0], [1, 1, 1, 0]]),
    ([5, 3], 0, [[2, 1, 1, 0], [1, 2, 1, 0]]),
    ([4, 4], 0, [[1, 2, 1, 0], [2, 2, 1, 0]]),
    ([3, 3], 0, [[1, 2, 1, 1], [2, 2, 1, 1]]),
    ([4, 2], 0, [[2, 3, 1, 1], [1, 1, 1, 1]]),
    ([2, 4], 0, [[3, 1, 1, 1], [1, 2, 1, 0]]),
    ([3, 3], 0, [[1, 2, 1, 1], [1, 3, 1, 1]]),
    ([4, 3], 0, [[1, 3, 1, 1], [2, 2, 1, 0]]),
    ([3, 3], 1, [[1, 2, 1, 0], [2, 1, 1, 0]]),
    ([3, 3], 1, [[1, 3, 1, 0], [1, 1, 1, 0]]),
    ([5, 5], 1, [[1, 2, 1, 0], [2, 5, 1, 0]]),
    ([5, 5], 1, [[1, 2, 1, 1], [2, 2, 1, 1]]),
    ([6, 4], 1, [[2, 3, 1, 1], [1, 1, 1, 0]]),
    ([4, 6], 2, [[3, 1, 1, 1], [1, 2, 1, 0]]),
    ([5, 7], 2, [[1, 5, 1, 0], [2, 1, 1, 0]]),
    ([7, 5], 2, [[1, 4, 1, 0], [3, 1, 1, 1]]),
    ([8, 3], 3, [[1, 3, 1, 1], [2, 2, 1, 0]]),
    ([4, 4], 3, [[1, 1, 1, 0], [1, 2, 1, 0]]),
    ([4, 4], 4, [[1, 1, 1, 0], [1, 2, 1, 1]]),
    ([3, 4], 20, [[1, 1, 1, 0], [2, 1, 1, 1]]),
];

/// All sequences of the parts whose measures, with the blade between neighbours, add up to at most
/// the room, the empty one too.
pub fn sequences<T: Clone>(parts: &[(T, u16)], blade: u16, room: u16) -> Vec<Vec<T>> {
    let mut all = vec![vec![]];
    for (part, measure) in parts {
        if *measure <= room {
            for mut rest in sequences(parts, blade, room.saturating_sub(measure + blade)) {
                rest.insert(0, part.clone());
                all.push(rest);
            }
        }
    }
    all
}

/// All boards of a size, whatever the stage rule, whose stacks and strips fit the size.
pub fn all_boards(structured: &Job, number: u16) -> Vec<Board> {
    let size = structured.sizes[usize::from(number)];
    let item = |position: Position| structured.sides(position);
    let positions = [1, 2].map(|number| [Position::unturned(number), Position::turned(number)]);
    let positions = positions.into_iter().flatten();
    let permitted = positions.filter(|&position| structured.permits(position));
    let items: Vec<(Position, u16)> = permitted
        .map(|position| (position, item(position).height))
        .collect();
    let filled = |stack: &Stack| !stack.is_empty();
    let blade = structured.blade;
    let stacks: Vec<Stack> = sequences(&items, blade, size.height)
        .into_iter()
        .filter(filled)
        .collect();
    let wide = |stack: &Stack| {
        stack
            .iter()
            .map(|&number| item(number).width)
            .max()
            .unwrap()
    };
    let high = |stack: &Stack| {
        let heights = stack.iter().map(|&number| item(number).height);
        heights
            .reduce(|below, height| below + blade + height)
            .unwrap()
    };
    let with_widths: Vec<(Stack, u16)> = stacks
        .iter()
        .map(|stack| (stack.clone(), wide(stack)))
        .collect();
    let strips: Vec<(Strip, u16)> = sequences(&with_widths, blade, size.width)
        .into_iter()
        .filter(|strip| !strip.is_empty())
        .map(|strip| {
            let height = strip.iter().map(high).max().unwrap();
            (strip, height)
        })
        .collect();
    let boards = sequences(&strips, blade, size.height).into_iter();
    let boards = boards.filter(|strips| !strips.is_empty());
    let board = |strips| Board {
        size: number,
        strips,
    };
    boards.map(board).collect()
}

/// Folds a board, followed by one board for each type so that the demands are met.
fn assert_board_folds(lent: &mut Lent, words: &[u16], board: &Board) {
    let structured = Job::from_words(words).unwrap();
    let alone = |number: u16| {
        let mut positions = structured.positions_of(number);
        let fitting = positions.find(|&position| structured.fits(position));
        Board {
            size: 0,
            strips: vec![vec![vec![fitting.unwrap()]]],
        }
    };
    let set = [board.clone(), alone(1), alone(2)];
    let lines = check::lines(&structured, &set);
    assert_eq!(lent.fold(words, &lines), boards(3));
    let cuts = plain::listing(words).1;
    let counts = lent.counts[..cuts.len()].to_vec();
    assert_eq!(plain::accepts(words, &counts), Some([3, 3]));
    let cut_in_turns = check::cut_in_turns(&structured, &cuts, &counts);
    assert_eq!(cut_in_turns, check::laid_in_turns(&structured, &lines));
}

#[test]
fn all_boards_of_small_jobs() {
    let mut lent = Lent::new();
    let (mut folded, mut refused) = (0, 0);
    for mode in Mode::ALL {
        for (sides, blade, items) in SMALL {
            let words = job_of(mode, sides, blade, &items);
            let structured = Job::from_words(&words).unwrap();
            for board in all_boards(&structured, 0) {
                let keeps = check::keeps_rules(&structured, std::slice::from_ref(&board));
                assert_eq!(keeps_rules(&structured, &board), keeps);
                if keeps {
                    assert_board_folds(&mut lent, &words, &board);
                    folded += 1;
                } else {
                    let lines = check::lines(&structured, &[board]);
                    let refusal = lent.fold(&words, &lines).unwrap_err();
                    assert_eq!((refusal.number, refusal.place > 0), (16, true));
                    refused += 1;
                }
            }
        }
    }
    assert!(folded > 2_000 && refused > 2_000, "{folded}, {refused}");
}

/// All counts of at most so many cuts together.
pub fn all_counts(cuts: usize, most: u16) -> Vec<Vec<u16>> {
    if cuts == 0 {
        return vec![vec![]];
    }
    let mut all = Vec::new();
    for count in 0..=most {
        for mut rest in all_counts(cuts - 1, most - count) {
            rest.push(count);
            all.push(rest);
        }
    }
    all
}

#[test]
fn all_small_plans_of_small_jobs() {
    let mut lent = Lent::new();
    let mut accepted = 0;
    for mode in Mode::ALL {
        for (sides, blade, items) in SMALL {
            let words = job_of(mode, sides, blade, &items);
            let structured = Job::from_words(&words).unwrap();
            let cuts = plain::listing(&words).1.len();
            let most = if cuts > 10 { 3 } else { 4 };
            let mut sets = HashSet::new();
            for counts in all_counts(cuts, most) {
                let opened = plain::accepts(&words, &counts);
                let tested = lent.test_plan(&words, &counts).ok();
                assert_eq!(tested.map(|outlay| [outlay.boards, outlay.cost]), opened);
                let Some([opened, _]) = opened else { continue };
                let unfolded = lent.unfold(&words, &counts).unwrap();
                assert_eq!(unfolded.boards, opened);
                let lines = lent.lines();
                check::rectangles_apart(&structured, &lines);
                assert!(check::keeps_rules(&structured, &check::set_in_turn(&lines)));
                assert_eq!(lent.fold(&words, &lines), boards(opened));
                assert_eq!(lent.counts[..cuts], counts);
                // Plans that differ unfold into sets that differ.
                assert!(sets.insert(lines));
                accepted += 1;
            }
        }
    }
    assert!(accepted > 500, "{accepted} plans were accepted");
}

/// The least number of boards, of these, in which each type lies as often as demanded: by how often
/// the two types are still missing.
fn least_boards(boards: &[[u16; 2]], demands: [u16; 2]) -> u32 {
    let mut reached = HashSet::from([demands]);
    let mut opened = 0;
    while !reached.contains(&[0, 0]) {
        let after = |missing: [u16; 2], laid: &[u16; 2]| {
            [0, 1].map(|item: usize| missing[item].saturating_sub(laid[item]))
        };
        let next = reached
            .iter()
            .flat_map(|&missing| boards.iter().map(move |laid| after(missing, laid)));
        reached = next.collect();
        opened += 1;
    }
    opened
}

/// How often the two types lie on a board.
pub fn laid_on(board: &Board) -> [u16; 2] {
    let mut laid = [0; 2];
    for item in board.strips.iter().flatten().flatten() {
        laid[usize::from(item.item) - 1] += 1;
    }
    laid
}

/// The bound of prices by area is at most the least number of boards, which is the least cost at a cost
/// of 1, and calls no higher one the cheapest.
fn assert_bound(words: &[u16], least: u32) {
    let structured = Job::from_words(words).unwrap();
    let listing = Listing::walk(&structured, FULL).unwrap();
    let prices = price_words(&area_prices(&structured, &listing, 9_999));
    let bound = Lent::new().test_prices(words, &prices).unwrap();
    assert!(bound.sum <= least * bound.d, "{words:?}");
    assert!(!bound.is_cheapest(least + 1), "{words:?}");
}

#[test]
fn no_plan_opens_fewer_boards_than_layouts_need_and_some_plan_as_few() {
    let (mut jobs, mut together) = (0, 0);
    for mode in Mode::ALL {
        for (sides, blade, items) in SMALL {
            for demands in [[1, 1], [2, 1], [1, 2], [2, 2]] {
                let [mut first, mut second] = items;
                [first[2], second[2]] = demands;
                let words = job_of(mode, sides, blade, &[first, second]);
                let structured = Job::from_words(&words).unwrap();
                let laid = all_boards(&structured, 0).into_iter();
                let kept = laid.filter(|board| keeps_rules(&structured, board));
                let kept: HashSet<[u16; 2]> = kept.map(|board| laid_on(&board)).collect();
                let kept: Vec<[u16; 2]> = kept.into_iter().collect();
                let least = least_boards(&kept, demands);
                let cuts = plain::listing(&words).1.len();
                let most = if cuts > 12 { 4 } else { 5 };
                let plans = all_counts(cuts, most).into_iter();
                let found = plans.filter_map(|counts| plain::accepts(&words, &counts));
                assert_eq!(found.min(), Some([least, least]), "{words:?}");
                assert_bound(&words, least);
                together += usize::from(least < u32::from(demands[0] + demands[1]));
                jobs += 1;
            }
        }
    }
    assert!(jobs == 384 && together > 200, "{jobs}, {together}");
}
