//! Small models: random jobs whose listings are small.

use crate::random::Random;
use reference::listing::Limits;
use reference::{Item, Job, Listing, Mode, Size};

/// The largest listing that the definitions are asked to compute.
pub const SMALL: Limits = Limits {
    plate_types: 24,
    cuts: 40,
};

/// A job, its words, and its listing, which is small.
pub struct Model {
    pub job: Job,
    pub words: Vec<u16>,
    pub listing: Listing,
}

impl Model {
    /// A random one of any mode; of three-stage jobs most have plates of stage 3.
    pub fn random(random: &mut Random) -> Model {
        let mode = random.pick(&Mode::ALL);
        loop {
            let job = random_job(random, mode);
            let Ok(listing) = Listing::walk(&job, SMALL) else {
                continue;
            };
            let third_stage = listing.plates.iter().any(|plate| plate.stage == 3);
            if mode.is_two_stage() || third_stage || random.once_in(8) {
                let words = job.words();
                return Model {
                    job,
                    words,
                    listing,
                };
            }
        }
    }
}

impl Model {
    /// The width and height of the first size.
    pub fn first_sides(&self) -> [u16; 2] {
        [self.job.sizes[0].width, self.job.sizes[0].height]
    }

    /// How many lines of kinds 1, 10 and 2 the job has.
    pub fn job_lines(&self) -> usize {
        1 + self.job.sizes.len() + self.job.items.len()
    }
}

/// A job whose sides are drawn from few values, so that equal widths and heights, and equal
/// types, occur. In two of three jobs some types have leave to be turned, and some of these fit the
/// first size only turned. Half of the jobs have one size, the others up to six. A good half has a blade, most of these a narrow one; some are wider than the
/// boards.
fn random_job(random: &mut Random, mode: Mode) -> Job {
    let longest = random.pick(&[4, 9, 16, 30]);
    let [width, height] = [0; 2].map(|_| random.between(longest / 2, longest));
    let widths = [0; 3].map(|_| random_side(random, width));
    let tall = random.between(height / 2 + 1, height);
    let heights = match random.once_in(2) {
        true => [tall, tall / 2, tall / 3].map(|side| side.max(1)),
        false => [0; 3].map(|_| random_side(random, height)),
    };
    let turning = !random.once_in(3);
    let items = (0..random.between(1, 4)).map(|_| {
        let item = Item {
            width: random.pick(&widths),
            height: random.pick(&heights),
            demand: random.between(1, 3),
            leave: turning && random.once_in(2),
        };
        match item.leave && random.once_in(2) {
            true => turned(item),
            false => item,
        }
    });
    let items = items.collect();
    Job {
        mode,
        sizes: random_sizes(random, [width, height]),
        blade: random_blade(random),
        items,
    }
}

/// One size, which is the given board, or up to six in any order, that one among them: the others may
/// be equal to it, at its cost or another, as wide and lower, like the residual above a strip, too
/// small for every item, or of any sides about as long. Some costs are at their limits.
fn random_sizes(random: &mut Random, [width, height]: [u16; 2]) -> Vec<Size> {
    let many = if random.once_in(2) {
        1
    } else {
        random.pick(&[2, 2, 3, 4, 5, 6])
    };
    let mut sizes: Vec<Size> = Vec::new();
    for number in 0..many {
        let [w, h] = match random.below(6) {
            _ if number == 0 => [width, height],
            0 | 1 => [width, height],
            2 => [width, random.between(1, height)],
            3 => [1, 1],
            _ => [random.between(1, width + 2), random.between(1, height + 2)],
        };
        let size = Size {
            width: w,
            height: h,
            cost: random.pick(&[1, 1, 1, 2, 3, 7, 10, 998, 999]),
        };
        sizes.insert(random.below(sizes.len() + 1), size);
    }
    sizes
}

/// No blade, a narrow one, or one of any width within its limits.
fn random_blade(random: &mut Random) -> u16 {
    let widest = random.pick(&[0, 0, 0, 3, 3, 3, 3, 20]);
    random.between(0, widest)
}

/// The item with its sides changed.
fn turned(item: Item) -> Item {
    Item {
        width: item.height,
        height: item.width,
        ..item
    }
}

/// An item's side, of which one, some or many go along the board's.
fn random_side(random: &mut Random, board: u16) -> u16 {
    let some = random.pick(&[1, 2, 3, 3, 5]);
    random.between(board.div_ceil(some + 2), board.div_ceil(some))
}
