//! Candidates of the search: jobs, their sizes, their neighbours and their text.

use inputs::Random;
use reference::instances::inputs::Inputs;
use reference::instances::read::Instance;
use reference::instances::{job_words, outcome};
use reference::job::{items_at, ITEM_NUMBERS};
use reference::listing::Limits;
use reference::{Job, Listing, Mode};
use std::fmt::Write;

/// Beyond these a candidate is of no use.
const FAR: Limits = Limits {
    plate_types: 3_000,
    cuts: 14_000,
};

/// The most pieces of a plan: the demands of every candidate add up to it.
const PIECES: usize = 4_000;

/// The numbers of plate types and cuts.
#[derive(Debug, Clone, Copy)]
pub struct Size {
    pub plate_types: usize,
    pub cuts: usize,
}

/// A job without its demands.
#[derive(Debug, Clone)]
pub struct Candidate {
    mode: Mode,
    board: [u16; 2],
    pub items: Vec<[u16; 2]>,
}

impl Candidate {
    /// Any job with sides of the board and a number of types within these limits; items are a
    /// tenth to a half of the board.
    pub fn random(random: &mut Random, mode: Mode, sides: [u16; 2], types: [u16; 2]) -> Candidate {
        let board = [0, 1].map(|_| random.between(sides[0], sides[1]));
        let many = random.between(types[0], types[1]);
        let item = |_| board.map(|side| random.between(side / 10, side / 2));
        Candidate {
            mode,
            board,
            items: (0..many).map(item).collect(),
        }
    }

    /// The size of the listing, unless it is far beyond the limits or the job is refused.
    pub fn size(&self) -> Option<Size> {
        let job = Job::from_words(&self.words()).ok()?;
        job.admit().ok()?;
        let listing = Listing::walk(&job, FAR).ok()?;
        Some(Size {
            plate_types: listing.plates.len(),
            cuts: listing.cuts.len(),
        })
    }

    /// One number changed by a little.
    pub fn changed(&self, random: &mut Random) -> Candidate {
        let mut near = self.clone();
        let index = random.below(2 + 2 * self.items.len());
        let step = random.between(1, 60);
        let number = near.number(index);
        *number = match random.once_in(2) {
            true => *number + step,
            false => number.saturating_sub(step).max(1),
        };
        near
    }

    /// All jobs that differ in one number by at most 40.
    pub fn neighbours(&self) -> Vec<Candidate> {
        let mut near = Vec::new();
        for index in 0..2 + 2 * self.items.len() {
            for step in 1..=40 {
                for sign in [-1, 1] {
                    let mut changed = self.clone();
                    let number = changed.number(index);
                    *number = number.saturating_add_signed(sign * step);
                    near.push(changed);
                }
            }
        }
        near
    }

    /// The board's sides, and then those of the items.
    fn number(&mut self, index: usize) -> &mut u16 {
        match index {
            0 | 1 => &mut self.board[index],
            _ => &mut self.items[index / 2 - 1][index % 2],
        }
    }

    /// The job with types as large as the board added, each of them one cut and no plate type.
    pub fn with_cuts(&self, cuts: usize) -> Candidate {
        let mut filled = self.clone();
        while filled.size().is_some_and(|size| size.cuts < cuts) {
            filled.items.push(self.board);
        }
        filled
    }

    /// The job's words: types as large as the board are demanded once, and the others share
    /// what is left of the most pieces.
    fn words(&self) -> Vec<u16> {
        let large = self.items.iter().filter(|&&item| item == self.board);
        let pieces = PIECES - large.count();
        let small = self.items.iter().filter(|&&item| item != self.board);
        let many = small.count();
        let demand = |index| match self.items[index] == self.board {
            true => 1,
            false => pieces / many + usize::from(index < pieces % many),
        };
        let item =
            |(index, &[width, height]): (usize, &[u16; 2])| [width, height, demand(index) as u16];
        let instance = Instance {
            items: self.items.iter().enumerate().map(item).collect(),
            ..Instance::default()
        };
        job_words(&instance, self.board, self.mode)
    }

    /// The lines of the job in `data/limits/`, with the answers expected.
    pub fn text(&self, name: &str, refusal: Option<u32>) -> String {
        let words = self.words();
        let [width, height] = self.board;
        let mut text = format!(
            "\njob {name}\nmode {}\nboard {width} {height} 1\n",
            self.mode.name()
        );
        for item in words[items_at(1)..].chunks(ITEM_NUMBERS) {
            writeln!(text, "item {} {} {}", item[0], item[1], item[2]).unwrap();
        }
        let answers = match (refusal, self.size()) {
            (Some(number), Some(size)) => format!(
                "refusal {number} 0\nwithout-limits {} {}\n",
                size.plate_types - 1,
                size.cuts
            ),
            _ => {
                let inputs = Inputs::of(&words).expect("the job is at the limits");
                let found = outcome::of(&words, &inputs).expect("the plan is accepted");
                format!(
                    "listing {} {}\nplan {} {}\n",
                    found.listed.residuals,
                    found.listed.cuts,
                    found.unfolded.boards,
                    found.unfolded.pieces
                )
            }
        };
        text + &answers
    }
}
