//! Searches jobs that lie just at the limits of the model, and just one past them, in each mode
//! (`data/limits/README.md`). Argument: the folder to write to.

mod candidate;

use candidate::{Candidate, Size};
use inputs::Random;
use reference::Mode;
use std::path::Path;
use std::{env, fs, io};

/// What a search looks for: a size whose distance is 0, and a size one past it.
struct Goal {
    file: &'static str,
    head: &'static str,
    /// Sides of boards, and item types, to begin with.
    sides: [u16; 2],
    types: [u16; 2],
    distance: fn(&Candidate, Size) -> usize,
    /// Whether a size is one past the goal, and the refusal that it gives.
    is_past: fn(Size) -> bool,
    refusal: u32,
    /// Whether cuts are added at the end that bring no plate type.
    filled: bool,
}

const GOALS: [Goal; 3] = [
    Goal {
        file: "plate-types.txt",
        head: "# Jobs with exactly 2,048 plate types, and with one more, in each mode.\n",
        sides: [600, 3_000],
        types: [5, 9],
        distance: |_, size| size.plate_types.abs_diff(2_048) + size.cuts.saturating_sub(8_192),
        is_past: |size| size.plate_types == 2_049 && size.cuts <= 8_192,
        refusal: 6,
        filled: false,
    },
    Goal {
        file: "cuts.txt",
        head: "# Jobs with exactly 8,192 cuts, and with one more, in each mode.\n",
        sides: [600, 3_000],
        types: [14, 30],
        distance: |_, size| size.cuts.abs_diff(8_192) + size.plate_types.saturating_sub(2_048),
        is_past: |size| size.cuts == 8_193 && size.plate_types <= 2_048,
        refusal: 7,
        filled: false,
    },
    Goal {
        file: "both.txt",
        head: "# Jobs with exactly 2,048 plate types and exactly 8,192 cuts, and with one cut more, in each mode.\n",
        sides: [600, 3_000],
        types: [8, 20],
        distance: |candidate, size| {
            let plates = size.plate_types.abs_diff(2_048);
            let above = size.cuts.saturating_sub(8_192);
            let fill = 39 - candidate.items.len();
            let below = 8_192_usize.saturating_sub(size.cuts + fill);
            4 * plates + above + below
        },
        is_past: |size| size.cuts == 8_193 && size.plate_types == 2_048,
        refusal: 7,
        filled: true,
    },
];

/// Steps without a nearer job after which a search begins anew.
const PATIENCE: usize = 300;

fn main() -> io::Result<()> {
    let folder = env::args()
        .nth(1)
        .expect("argument: the folder to write to");
    for goal in &GOALS {
        let mut text = goal.head.to_string();
        for (seed, mode) in (1..).zip(Mode::ALL) {
            text.push_str(&found(goal, mode, &mut Random::new(seed)));
        }
        fs::write(Path::new(&folder).join(goal.file), text)?;
    }
    Ok(())
}

/// The text of the two jobs that a search finds for a mode.
fn found(goal: &Goal, mode: Mode, random: &mut Random) -> String {
    let name = format!("{} {}", goal.file.trim_end_matches(".txt"), mode.name());
    let is_past = |near: &Candidate| near.size().is_some_and(goal.is_past);
    loop {
        let Some(at) = climb(goal, mode, random) else {
            continue;
        };
        let (at, near) = match goal.filled {
            true => (at.with_cuts(8_192), vec![at.with_cuts(8_193)]),
            false => (at.clone(), at.neighbours()),
        };
        if let Some(past) = near.into_iter().find(is_past) {
            let refusal = Some(goal.refusal);
            return at.text(&name, None) + &past.text(&format!("{name} one past"), refusal);
        }
    }
}

/// Changes one number after another, and keeps what is no farther from the goal; none if the
/// goal is not reached with patience.
fn climb(goal: &Goal, mode: Mode, random: &mut Random) -> Option<Candidate> {
    let mut best = Candidate::random(random, mode, goal.sides, goal.types);
    let mut distance = (goal.distance)(&best, best.size()?);
    let mut idle = 0;
    while distance > 0 && idle < PATIENCE {
        idle += 1;
        let near = best.changed(random);
        let Some(size) = near.size() else {
            continue;
        };
        let there = (goal.distance)(&near, size);
        if there < distance {
            idle = 0;
        }
        if there <= distance {
            (best, distance) = (near, there);
        }
    }
    (distance == 0).then_some(best)
}
