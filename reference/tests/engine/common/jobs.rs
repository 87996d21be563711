//! Jobs: those of document 01, with a blade of no width and one size at a cost of 1, and random
//! ones.

use super::random::Random;
use reference::{Item, Job, Mode, Size};

/// The two words of a mode: stages and exact.
pub fn mode_words(mode: Mode) -> [u16; 2] {
    match mode {
        Mode::TwoExact => [2, 1],
        Mode::TwoNonExact => [2, 0],
        Mode::ThreeExact => [3, 1],
        Mode::ThreeNonExact => [3, 0],
    }
}

/// Job words from a mode, the board's sides, and width, height, demand of each type; no type has
/// leave to be turned, and the blade has no width.
pub fn job(mode: Mode, board: [u16; 2], items: &[[u16; 3]]) -> Vec<u16> {
    job_with_blade(mode, board, 0, items)
}

/// The same with a blade.
pub fn job_with_blade(mode: Mode, board: [u16; 2], blade: u16, items: &[[u16; 3]]) -> Vec<u16> {
    let without = |&[width, height, demand]: &[u16; 3]| [width, height, demand, 0];
    let items: Vec<[u16; 4]> = items.iter().map(without).collect();
    job_of(mode, board, blade, &items)
}

/// Job words from a mode, the board's sides, and width, height, demand, leave of each type; the
/// blade has no width.
pub fn job_with_leave(mode: Mode, board: [u16; 2], items: &[[u16; 4]]) -> Vec<u16> {
    job_of(mode, board, 0, items)
}

/// Job words from a mode, the board's sides, the blade, and width, height, demand, leave of each
/// type; the board is one size at a cost of 1.
pub fn job_of(mode: Mode, board: [u16; 2], blade: u16, items: &[[u16; 4]]) -> Vec<u16> {
    job_on(mode, &[[board[0], board[1], 1]], blade, items)
}

/// Job words from a mode, W, H and cost of each size, the blade, and width, height, demand, leave of
/// each type.
pub fn job_on(mode: Mode, sizes: &[[u16; 3]], blade: u16, items: &[[u16; 4]]) -> Vec<u16> {
    let mut words = mode_words(mode).to_vec();
    words.extend([sizes.len() as u16, items.len() as u16, blade]);
    words.extend(sizes.iter().flatten());
    words.extend(items.iter().flatten());
    words
}

/// The same without leave and blade.
pub fn job_on_sizes(mode: Mode, sizes: &[[u16; 3]], items: &[[u16; 3]]) -> Vec<u16> {
    let without = |&[width, height, demand]: &[u16; 3]| [width, height, demand, 0];
    let items: Vec<[u16; 4]> = items.iter().map(without).collect();
    job_on(mode, sizes, 0, &items)
}

/// Job A of document 01.
pub fn job_a() -> Vec<u16> {
    job(Mode::TwoNonExact, [9, 7], &[[5, 4, 2], [3, 3, 3]])
}

/// The plan of job A.
pub const PLAN_A: [u16; 8] = [2, 0, 1, 1, 0, 0, 1, 0];

/// The prices of job A: D 1, item 1 and plate type 3 at 1, the rest 0.
pub const PRICES_A: [u16; 8] = [1, 1, 0, 0, 0, 1, 0, 0];

/// Job B of document 01.
pub fn job_b() -> Vec<u16> {
    job(Mode::ThreeNonExact, [5, 5], &[[3, 5, 1], [2, 2, 2]])
}

/// The words of a structured job.
pub fn words_of(structured: &Job) -> Vec<u16> {
    let items: Vec<[u16; 4]> = (structured.items.iter())
        .map(|item| [item.width, item.height, item.demand, u16::from(item.leave)])
        .collect();
    let sizes: Vec<[u16; 3]> = (structured.sizes.iter())
        .map(|size| [size.width, size.height, size.cost])
        .collect();
    job_on(structured.mode, &sizes, structured.blade, &items)
}

/// A random job: any mode, small boards of one to six sizes, up to five types whose sides are drawn from few
/// values, so that equal widths and heights occur and the exact modes have work to do. Most jobs
/// have types with leave to be turned, and some of these fit the board only turned. The blade has no
/// width, or a narrow one, or any within its limits, so that it is wider than some boards.
pub fn random_job(random: &mut Random) -> Job {
    let mode = random.pick(&Mode::ALL);
    random_job_in(random, mode)
}

/// A random job in a mode.
pub fn random_job_in(random: &mut Random, mode: Mode) -> Job {
    let longest = random.pick(&[4, 8, 15, 30]);
    let [width, height] = [0; 2].map(|_| random.between(1, longest));
    random_job_on(random, mode, [width, height])
}

/// A random job in a mode on a board and others, as large as that or smaller.
fn random_job_on(random: &mut Random, mode: Mode, [width, height]: [u16; 2]) -> Job {
    let widths: Vec<u16> = (0..3).map(|_| random.between(1, width)).collect();
    let heights: Vec<u16> = (0..3).map(|_| random.between(1, height)).collect();
    let types = random.between(1, 5);
    let turning = !random.once_in(4);
    let items = (0..types).map(|_| {
        let item = Item {
            width: random.pick(&widths),
            height: random.pick(&heights),
            demand: random.between(1, 3),
            leave: false,
        };
        with_leave(random, item, turning)
    });
    let items = items.collect();
    Job {
        mode,
        sizes: random_sizes(random, [width, height]),
        blade: random_blade(random),
        items,
    }
}

/// One to six sizes in any order, a given one among them: every other job has it alone, the others
/// may be equal, equal a strip's residual of one, be too small for every item, or be larger; each
/// has a cost of its own.
fn random_sizes(random: &mut Random, [width, height]: [u16; 2]) -> Vec<Size> {
    let many = if random.once_in(2) {
        1
    } else {
        random.between(2, 6)
    };
    let mut sizes = Vec::new();
    for number in 0..many {
        let [w, h] = match (number, random.below(5)) {
            (0, _) | (_, 0) => [width, height],
            (_, 1) => [width, random.between(1, height)],
            (_, 2) => [1, 1],
            (_, 3) => [random.between(1, width), random.between(1, height)],
            _ => [
                random.between(width, width + 3),
                random.between(height, height + 3),
            ],
        };
        sizes.push(Size {
            width: w.min(10_000),
            height: h.min(10_000),
            cost: random.pick(&[1, 1, 2, 3, 10, 50, 999]),
        });
    }
    random.shuffle(&mut sizes);
    sizes
}

/// The item, in a job where types turn with leave one time in two, and then as it was or turned.
fn with_leave(random: &mut Random, item: Item, turning: bool) -> Item {
    let leave = turning && random.once_in(2);
    let (width, height) = match leave && random.once_in(2) {
        true => (item.height, item.width),
        false => (item.width, item.height),
    };
    Item {
        width,
        height,
        leave,
        ..item
    }
}

/// No blade, a narrow one, or one of any width within its limits.
fn random_blade(random: &mut Random) -> u16 {
    let widest = random.pick(&[0, 3, 3, 20]);
    random.between(0, widest)
}

/// A random job on a board of up to 25, with a blade of any width within its limits: often wider
/// than every side.
pub fn random_blade_job_in(random: &mut Random, mode: Mode) -> Job {
    let [width, height] = [0; 2].map(|_| random.between(1, 25));
    Job {
        blade: random.between(0, 20),
        ..random_job_on(random, mode, [width, height])
    }
}

/// A random job of large sides and up to forty types, so few of which fit beside or above each
/// other that its listing stays small; now and then it is past the limits all the same.
pub fn random_large_job(random: &mut Random, mode: Mode) -> Job {
    let [width, height] = [0; 2].map(|_| random.between(1_000, 10_000));
    let types = random.between(1, 40);
    let least = if types > 8 { 3 } else { 6 };
    let turning = random.once_in(3);
    let items = (0..types).map(|_| {
        let item = Item {
            width: random.between(width / least, width),
            height: random.between(height / least, height),
            demand: random.between(1, 4),
            leave: false,
        };
        with_leave(random, item, turning)
    });
    let items = items.collect();
    Job {
        mode,
        sizes: random_sizes(random, [width, height]),
        blade: random_blade(random),
        items,
    }
}
