//! What remains of the boards: offcuts, waste and the blade's swath. The saw's text lists none of
//! them; they follow from the plan, and folding the saw's own output gives the plan back.

use crate::answer::{Answer, Placement};
use crate::columns::thousands;
use crate::job::{Job, MOST_SIDE};
use crate::listing::{to_walk, too_large};
use reference::balance::of_boards;
use reference::folding::fold;
use reference::layout::PLACEMENT_NUMBERS;
use reference::layout_lines::test;
use reference::listing::FULL;
use reference::unfolding::{unfold, Unfolding};
use reference::{Balance, Listing};

/// Lengths that every offcut reaches.
pub const LEAST: [usize; 2] = [1, 1];

/// A piece of plate that is left over; it is usable if its width reaches the first of two lengths
/// and its height the second.
#[derive(Debug, Clone, Copy, PartialEq, Eq)]
pub struct Offcut {
    pub x: usize,
    pub y: usize,
    pub width: usize,
    pub height: usize,
    pub usable: bool,
}

/// A band that the blade takes between pieces, as wide as the blade or as what remained of the piece.
/// Its part inside a trim is waste and no part of the band.
#[derive(Debug, Clone, Copy, PartialEq, Eq)]
pub struct Band {
    pub x: usize,
    pub y: usize,
    pub width: usize,
    pub height: usize,
}

/// The offcuts of a board, the bands of its swath, and the areas of its items, offcuts, waste and
/// swath.
#[derive(Debug, Clone, PartialEq, Eq)]
pub struct Rest {
    pub offcuts: Vec<Offcut>,
    pub swath: Vec<Band>,
    pub areas: Balance,
}

/// The two lengths, and what remains of each board.
#[derive(Debug, Clone, PartialEq, Eq)]
pub struct Remains {
    pub lengths: [usize; 2],
    pub boards: Vec<Rest>,
}

impl Remains {
    /// What remains of the boards of the saw's answer for a job. An error says why the answer cannot
    /// be the saw's.
    pub fn of(job: &Job, answer: &Answer, lengths: [usize; 2]) -> Result<Remains, String> {
        let walked = to_walk(job);
        let listing = Listing::walk(&walked, FULL).map_err(too_large)?;
        let lines = lines(&walked, answer).ok_or_else(not_laid_so)?;
        let set = test(&walked, &lines, 1).map_err(|_| not_laid_so())?;
        let counts = fold(&walked, &listing, &set);
        let unfolding = unfold(&walked, &listing, &counts);
        if unfolding.placements != lines {
            return Err(not_laid_so());
        }
        let areas = of_boards(&walked, &listing, &unfolding);
        let rest = |(number, areas): (u16, Balance)| Rest {
            offcuts: offcuts(&unfolding, number, lengths),
            swath: swath(&walked, &listing, &unfolding, number),
            areas,
        };
        Ok(Remains {
            lengths,
            boards: (1..).zip(areas).map(rest).collect(),
        })
    }

    /// The areas of all boards together.
    pub fn areas(&self) -> Balance {
        let mut areas = Balance::default();
        for board in &self.boards {
            areas.items += board.areas.items;
            areas.offcuts += board.areas.offcuts;
            areas.waste += board.areas.waste;
            areas.swath += board.areas.swath;
        }
        areas
    }

    /// The offcuts of all boards.
    pub fn offcuts(&self) -> impl Iterator<Item = &Offcut> {
        self.boards.iter().flat_map(|board| &board.offcuts)
    }
}

/// The two lengths of two words, or those that every offcut reaches where there are no words. An error says
/// what is wrong with them.
pub fn lengths(words: &[&str]) -> Result<[usize; 2], String> {
    let read = |word: &str| match word.parse() {
        Ok(length @ 1..=MOST_SIDE) => Ok(length),
        Ok(length) => Err(format!(
            "a length of {} is outside its limits, 1 to {}",
            thousands(length),
            thousands(MOST_SIDE)
        )),
        Err(_) => Err(format!("{word} is not a number")),
    };
    match words {
        [] => Ok(LEAST),
        [first, second] => Ok([read(first)?, read(second)?]),
        _ => Err("a usable offcut has two lengths, a width and a height".into()),
    }
}

/// The lines of the answer, if each number is within its limits.
fn lines(job: &reference::Job, answer: &Answer) -> Option<Vec<reference::Placement>> {
    let line = |of_board: [usize; 2], placement: &Placement| {
        let numbers = of_board.into_iter().chain(placement.numbers());
        let mut words = [0; PLACEMENT_NUMBERS];
        for (word, number) in words.iter_mut().zip(numbers) {
            *word = u32::try_from(number).ok()?;
        }
        reference::Placement::from_numbers(words, job)
    };
    let boards = (1..).zip(&answer.boards);
    let lines = boards.flat_map(|(number, board)| {
        let of_board = [number, board.size];
        board
            .placements
            .iter()
            .map(move |placement| line(of_board, placement))
    });
    lines.collect()
}

/// The offcuts of a board.
fn offcuts(unfolding: &Unfolding, board: u16, [first, second]: [usize; 2]) -> Vec<Offcut> {
    let on_board = unfolding
        .offcuts
        .iter()
        .filter(|offcut| offcut.board == board);
    let offcut = |offcut: &reference::Offcut| {
        let [width, height] = [offcut.width, offcut.height].map(usize::from);
        Offcut {
            x: offcut.x.into(),
            y: offcut.y.into(),
            width,
            height,
            usable: width >= first && height >= second,
        }
    };
    on_board.map(offcut).collect()
}

/// The bands of the swath on a board.
fn swath(job: &reference::Job, listing: &Listing, unfolding: &Unfolding, board: u16) -> Vec<Band> {
    let mut swath = Vec::new();
    for (placement, &cut) in unfolding.placements.iter().zip(&unfolding.cuts) {
        if placement.board == board {
            let plate = listing.plates[usize::from(listing.cuts[cut].plate)];
            swath.extend(bands(job, &plate, placement));
        }
    }
    swath
}

/// The bands of the swath of one cut: above the item and beside it, where something remains there, but
/// not inside the trim of a two-stage strip or of a stack.
fn bands(
    job: &reference::Job,
    plate: &reference::Plate,
    placement: &reference::Placement,
) -> impl Iterator<Item = Band> {
    let item = job.sides(placement.position);
    let [width, height] = [item.width, item.height].map(usize::from);
    let [whole_width, whole_height] = [plate.width, plate.height].map(usize::from);
    let blade = usize::from(job.blade);
    let [across, upwards] =
        [whole_width - width, whole_height - height].map(|rest| rest.min(blade));
    let [x, y] = [placement.x, placement.y].map(usize::from);
    let above = |width| [x, y + height, width, upwards];
    let beside = |height| [x + width, y, across, height];
    let none = [0; 4];
    let bands = match (plate.stage, job.mode.is_two_stage()) {
        (1, _) => [above(whole_width), beside(height)],
        (2, true) => [none, beside(height)],
        (2, false) => [above(width), beside(whole_height)],
        _ => [above(width), none],
    };
    let band = |[x, y, width, height]: [usize; 4]| Band {
        x,
        y,
        width,
        height,
    };
    let filled = |[.., width, height]: &[usize; 4]| width * height > 0;
    bands.into_iter().filter(filled).map(band)
}

/// What to say of an output that the saw does not write for any plan of the job.
fn not_laid_so() -> String {
    "the saw lays no plan of this job out like this: is it the output for another job?".into()
}

#[cfg(test)]
pub mod tests {
    use super::*;
    use crate::job::tests::{job, job_a, job_with_blade, two_sizes};

    /// The answer that an output is, and what remains of its boards.
    pub fn answered(job: &Job, output: &str, lengths: [usize; 2]) -> (Answer, Remains) {
        let answer = Answer::read(output, job).unwrap();
        let remains = Remains::of(job, &answer, lengths).unwrap();
        (answer, remains)
    }

    const OUTPUT: &str = "7 1 0 1 1 1 1 0 0 0\n7 1 0 1 2 1 2 5 0 0\n7 1 0 2 1 1 2 0 4 0\n7 1 0 2 2 1 2 3 4 0\n7 2 0 1 1 1 1 0 0 0\n8 2 2 1 1\n";

    fn remains(output: &str, lengths: [usize; 2]) -> Result<Remains, String> {
        Remains::of(&job_a(), &Answer::read(output, &job_a()).unwrap(), lengths)
    }

    /// The job on two sizes, and its answer and remains of two boards of size 0 that are alike and these lines.
    pub fn two_alike(more: &str) -> (Job, Answer, Remains) {
        let board =
            |number: usize| format!("7 {number} 0 1 1 1 1 0 0 0\n7 {number} 0 1 2 1 2 5 0 0\n");
        let output = board(1) + &board(2) + more;
        let (answer, remains) = answered(&two_sizes(), &output, LEAST);
        (two_sizes(), answer, remains)
    }

    /// x, y, width, height and whether it is usable, of each offcut of each board.
    fn listed(remains: &Remains) -> Vec<Vec<([usize; 4], bool)>> {
        let offcut = |offcut: &Offcut| {
            let sides = [offcut.x, offcut.y, offcut.width, offcut.height];
            (sides, offcut.usable)
        };
        let boards = remains.boards.iter();
        boards
            .map(|board| board.offcuts.iter().map(offcut).collect())
            .collect()
    }

    #[test]
    fn job_a_leaves_three_offcuts() {
        let found = remains(OUTPUT, [4, 3]).unwrap();
        let second = vec![([5, 0, 4, 4], true), ([0, 4, 9, 3], true)];
        assert_eq!(listed(&found), [vec![([6, 4, 3, 3], false)], second]);
        let areas = |board: &Rest| [board.areas.items, board.areas.offcuts, board.areas.waste];
        let boards: Vec<[u64; 3]> = found.boards.iter().map(areas).collect();
        assert_eq!(boards, [[47, 9, 7], [20, 43, 0]]);
        assert_eq!(found.areas().whole(), 2 * 9 * 7);
        let usable = |lengths| {
            let found = remains(OUTPUT, lengths).unwrap();
            found.offcuts().filter(|offcut| offcut.usable).count()
        };
        assert_eq!([LEAST, [4, 4], [9, 3], [3, 9]].map(usable), [3, 1, 1, 0]);
    }

    #[test]
    fn the_swath_of_a_strip_with_a_trim() {
        let job = job_with_blade("2N", [20, 10], 2, &[[8, 9, 1], [8, 6, 1]]);
        let output = "7 1 0 1 1 1 1 0 0 0\n7 1 0 1 2 1 2 10 0 0\n8 1 0 1 0\n";
        let (_, found) = answered(&job, output, LEAST);
        let [board] = &found.boards[..] else { panic!() };
        let band = |band: &Band| [band.x, band.y, band.width, band.height];
        let bands: Vec<[usize; 4]> = board.swath.iter().map(band).collect();
        assert_eq!(bands, [[0, 9, 20, 1], [8, 0, 2, 9], [18, 0, 2, 6]]);
        let Balance {
            items,
            offcuts,
            waste,
            swath,
        } = found.areas();
        assert_eq!([items, offcuts, waste, swath], [120, 0, 30, 50]);
    }

    #[test]
    fn what_the_saw_does_not_write_is_told() {
        let boards_swapped = "7 1 0 1 1 1 1 0 0 0\n7 2 0 1 1 1 1 0 0 0\n7 2 0 1 2 1 2 5 0 0\n7 2 0 2 1 1 2 0 4 0\n7 2 0 2 2 1 2 3 4 0\n8 2 2 1 1\n";
        let outputs = [
            OUTPUT.replace("7 1 0 2 2 1 2 3 4 0\n", ""),
            OUTPUT.replace("7 1 0 2 2 1 2 3 4 0", "7 1 0 2 2 1 2 4 4 0"),
            OUTPUT.replace("7 1 0 2 2 1 2 3 4 0", "7 1 0 2 3 1 2 3 4 0"),
            OUTPUT.replace("7 1 0 2 2 1 2 3 4 0", "7 1 0 2 99999999999 1 2 3 4 0"),
            boards_swapped.to_string(),
        ];
        for output in outputs {
            let fault = remains(&output, LEAST).unwrap_err();
            assert!(fault.contains("no plan of this job"), "{output}: {fault}");
        }
        let fine = job("3N", [10_000, 10_000], &[[71, 83, 1], [97, 61, 1]]);
        let answer = Answer::read(OUTPUT, &job_a()).unwrap();
        let fault = Remains::of(&fine, &answer, LEAST).unwrap_err();
        assert!(fault.contains("2,048 plate types"), "{fault}");
    }

    #[test]
    fn lengths_are_1_to_10_000() {
        assert_eq!(lengths(&["1", "10000"]), Ok([1, 10_000]));
        assert_eq!(lengths(&[]), Ok(LEAST));
        for (words, told) in [
            (["0", "3"], "a length of 0"),
            (["3", "10001"], "a length of 10,001"),
            (["3", "wide"], "wide is not a number"),
            (["-3", "3"], "-3 is not a number"),
        ] {
            let fault = lengths(&words).unwrap_err();
            assert!(fault.contains(told), "{fault}");
        }
    }
}
