//! Theorems below the calls: the walk within small limits, sets of layouts and their rules,
//! rectangles, and whether a plan is the cheapest.

use crate::antt::{list, numbers, outcome, words, Equation};
use crate::Theorem;
use inputs::layouts::{grow_anywhere, random_set, words_of_lines};
use inputs::prices::random_prices;
use inputs::{Model, Random};
use reference::layout::{keeps_rules, placements};
use reference::listing::Limits;
use reference::plan::ensure_demands;
use reference::{Board, Job, Listing, Placement, Position, Prices, Stack, Strip};
use std::collections::HashSet;

/// A theorem over the walk within limits about the size of the listing, refused 6 or 7 or not.
pub fn walk_theorem(random: &mut Random) -> Theorem {
    let model = Model::random(random);
    let [plates, cuts] = [model.listing.plates.len(), model.listing.cuts.len()];
    let about = |random: &mut Random, size: usize| match random.below(3) {
        0 => random.below(size + 1),
        more => size + more - 1,
    };
    let limits = Limits {
        plate_types: about(random, plates).max(model.listing.sizes),
        cuts: about(random, cuts),
    };
    let walked = Listing::walk(&model.job, limits);
    let lent = match &walked {
        Ok(listing) => [listing.plate_words(&model.job), listing.cut_words()],
        Err(_) => [Vec::new(), Vec::new()],
    };
    let sizes = |listing: Listing| [listing.residual_types(), listing.cuts.len()];
    let answer = walked.map(|listing| sizes(listing).map(|size| size as u32).to_vec());
    let [plate_types, cuts] = [limits.plate_types, limits.cuts].map(|limit| limit.to_string());
    Theorem {
        equation: Equation {
            definition: "walk_call",
            arguments: vec![plate_types, cuts, words(&model.words)],
            answer: outcome(&answer, &lent),
        },
        refusal: answer.err().map(|refusal| refusal.number),
    }
}

/// A theorem over a set of layouts: whether it keeps the rules, meets the demands, lies inside
/// its boards, and with the blade between any two items; and its lines.
pub fn set_theorem(random: &mut Random) -> Theorem {
    let model = Model::random(random);
    let set = set_or_broken(random, &model.job);
    let lines = placements(&model.job, &set);
    let mut laid = vec![0; model.job.items.len() + 1];
    for line in &lines {
        laid[usize::from(line.position.item)] += 1;
    }
    let holds = [
        set.iter().all(|board| keeps_rules(&model.job, board)),
        ensure_demands(&model.job, &laid).is_ok(),
        is_inside(&model.job, &lines),
        are_apart(&model.job, &lines),
    ];
    Theorem {
        equation: Equation {
            definition: "judged",
            arguments: vec![words(&model.words), set_of(&set)],
            answer: vec![
                format!("judgement {}", list(holds.map(|held| held.to_string()))),
                words(&words_of_lines(&lines)),
            ],
        },
        refusal: None,
    }
}

/// A theorem over the rules alone, of a set that may have an empty list, a type that the job has
/// not, an item turned without leave, or a board of another size.
pub fn rules_theorem(random: &mut Random) -> Theorem {
    let model = Model::random(random);
    let mut set = set_or_broken(random, &model.job);
    let board = random.below(set.len());
    let strips = &mut set[board].strips;
    let strip = random.below(strips.len());
    let types = model.job.items.len() as u16;
    let sizes = model.job.sizes.len() as u16;
    match random.below(12) {
        0 => set.push(Board {
            size: random.below(usize::from(sizes)) as u16,
            strips: Vec::new(),
        }),
        1 => strips.push(Vec::new()),
        2 => strips[strip].push(Vec::new()),
        3 => strips[strip][0][0].item = random.pick(&[0, types + 1]),
        5 => strips[strip][0][0] = Position::turned(random.between(1, types)),
        4 => set.clear(),
        6 | 7 => set[board].size = random.between(0, sizes),
        _ => {}
    }
    let kept = set.iter().all(|board| keeps_rules(&model.job, board));
    Theorem {
        equation: Equation {
            definition: "rules",
            arguments: vec![words(&model.words), set_of(&set)],
            answer: vec![kept.to_string()],
        },
        refusal: None,
    }
}

/// A theorem over rectangles: those of a set, of which one may be moved, to another board too.
pub fn rectangle_theorem(random: &mut Random) -> Theorem {
    let model = Model::random(random);
    let set = random_set(random, &model.job);
    let mut lines = placements(&model.job, &set);
    let moved = random.below(lines.len());
    let line = &mut lines[moved];
    match random.below(6) {
        0 => line.x += 1,
        1 => line.y += 1,
        2 => line.x = line.x.saturating_sub(1),
        3 => line.y = line.y.saturating_sub(1),
        4 => line.size = random.below(model.job.sizes.len()) as u16,
        _ => line.board = random.between(1, 2),
    }
    let holds = [is_inside(&model.job, &lines), are_apart(&model.job, &lines)];
    Theorem {
        equation: Equation {
            definition: "rectangles",
            arguments: vec![words(&model.words), words(&words_of_lines(&lines))],
            answer: vec![list(holds.map(|held| held.to_string()))],
        },
        refusal: None,
    }
}

/// A theorem over "cheapest": of accepted prices and a cost about their bound.
pub fn cheapest_theorem(random: &mut Random) -> Theorem {
    let model = Model::random(random);
    let price_words = random_prices(random, &model);
    let prices = Prices::from_words(&price_words, &model.job, &model.listing);
    let bound = prices.and_then(|prices| prices.test(&model.job, &model.listing));
    let bound = bound.expect("the prices are accepted");
    let cost = bound.sum / bound.d + random.below(3) as u32;
    Theorem {
        equation: Equation {
            definition: "is_cheapest",
            arguments: vec![words(&model.words), words(&price_words), cost.to_string()],
            answer: vec![bound.is_cheapest(cost).to_string()],
        },
        refusal: None,
    }
}

/// A set that keeps the rules and meets the demands, or one without its first board, or one in
/// which items are put anywhere.
fn set_or_broken(random: &mut Random, job: &Job) -> Vec<Board> {
    let mut set = random_set(random, job);
    if random.once_in(4) && set.len() > 1 {
        set.remove(0);
    }
    if random.once_in(2) {
        for _ in 0..=random.below(3) {
            grow_anywhere(random, job, &mut set);
        }
    }
    set
}

/// The square millimetres that items cover, each item taken so much wider and higher, by board; one
/// that two of them cover stands twice.
fn cells(job: &Job, lines: &[Placement], more: u16) -> Vec<[u16; 3]> {
    let mut cells = Vec::new();
    for line in lines {
        let item = job.sides(line.position);
        for x in line.x..line.x + item.width + more {
            cells.extend((line.y..line.y + item.height + more).map(|y| [line.board, x, y]));
        }
    }
    cells
}

/// Whether only the boards are covered: each item lies inside the size that its own line names.
fn is_inside(job: &Job, lines: &[Placement]) -> bool {
    lines.iter().all(|line| {
        let size = job.size(line.size);
        let inside = |&[_, x, y]: &[u16; 3]| x < size.width && y < size.height;
        let item = std::slice::from_ref(line);
        cells(job, item, 0).iter().all(inside)
    })
}

/// Whether any two items of a board are at least the blade apart, across or upwards: where each is
/// taken the blade wider and higher, no square millimetre is covered twice.
fn are_apart(job: &Job, lines: &[Placement]) -> bool {
    let mut covered = HashSet::new();
    let mut cells = cells(job, lines, job.blade).into_iter();
    cells.all(|cell| covered.insert(cell))
}

/// A set as a list of boards, each with its size, that are lists of lists of lists; an item is twice its
/// type plus its turn.
fn set_of(set: &[Board]) -> String {
    let stack = |stack: &Stack| numbers(stack.iter().map(|position| position.word()));
    let strip = |strip: &Strip| list(strip.iter().map(stack));
    let board = |board: &Board| {
        let strips = list(board.strips.iter().map(strip));
        format!("sheet {} {strips}", board.size)
    };
    list(set.iter().map(board))
}
