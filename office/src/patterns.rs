//! Patterns: boards of one size that are laid out alike are one pattern, drawn and sawn so many
//! times.

use crate::answer::{Answer, Board};
use crate::job::Job;
use crate::remains::{Remains, Rest};
use crate::words::{counted, ranges};
use std::collections::HashMap;

/// A layout, what remains of it, and the boards that have it.
#[derive(Debug, Clone, PartialEq, Eq)]
pub struct Pattern<'a> {
    /// From 1, by the first board of each.
    pub number: usize,
    pub board: &'a Board,
    pub rest: &'a Rest,
    /// The numbers of the boards, rising.
    pub boards: Vec<usize>,
}

/// The patterns of an answer, by their first boards.
pub fn patterns<'a>(answer: &'a Answer, remains: &'a Remains) -> Vec<Pattern<'a>> {
    let mut places: HashMap<&Board, usize> = HashMap::new();
    let mut patterns: Vec<Pattern> = Vec::new();
    for (number, (board, rest)) in (1..).zip(answer.boards.iter().zip(&remains.boards)) {
        let place = *places.entry(board).or_insert(patterns.len());
        if place == patterns.len() {
            patterns.push(Pattern {
                number: place + 1,
                board,
                rest,
                boards: Vec::new(),
            });
        }
        patterns[place].boards.push(number);
    }
    patterns
}

impl Pattern<'_> {
    /// How often the pattern is sawn.
    pub fn times(&self) -> usize {
        self.boards.len()
    }

    /// The pattern and its boards, as "Pattern 2 of 17: × 43, boards 1 to 43", at most so many
    /// parts of the boards' numbers.
    pub fn title(&self, of: usize, most: usize) -> String {
        let boards = ranges("board", &self.boards, most);
        format!(
            "Pattern {} of {of}: × {}, {boards}",
            self.number,
            self.times()
        )
    }

    /// Its size, its pieces and the blade.
    pub fn size_words(&self, job: &Job) -> String {
        let size = self.board.size;
        format!(
            "size {size} ({}), {}, blade {} mm",
            job.sizes[size].words(),
            counted(self.board.placements.len(), "piece"),
            job.blade
        )
    }

    /// The item types and turns on a board of it, rising, each with its number of pieces.
    pub fn pieces(&self) -> Vec<(usize, bool, usize)> {
        let mut kinds: Vec<(usize, bool)> = self
            .board
            .placements
            .iter()
            .map(|placement| (placement.item, placement.turned))
            .collect();
        kinds.sort();
        let alike = kinds.chunk_by(|one, other| one == other);
        alike.map(|run| (run[0].0, run[0].1, run.len())).collect()
    }
}

#[cfg(test)]
mod tests {
    use super::*;
    use crate::remains::tests::two_alike;

    #[test]
    fn equal_boards_are_one_pattern() {
        let more = "7 3 0 1 1 1 2 0 0 0\n7 4 1 1 1 1 2 0 0 0\n8 10 0 1 0\n";
        let (job, answer, remains) = two_alike(more);
        let patterns = patterns(&answer, &remains);
        let boards: Vec<&[usize]> = patterns.iter().map(|pattern| &pattern.boards[..]).collect();
        // Boards 3 and 4 hold the same item in the same place, but are of two sizes.
        assert_eq!(boards, [&[1, 2][..], &[3], &[4]]);
        let title = "Pattern 1 of 3: × 2, boards 1 to 2";
        assert_eq!(patterns[0].title(3, 4), title);
        let size = "size 1 (9 by 3), 1 piece, blade 0 mm";
        assert_eq!(patterns[2].size_words(&job), size);
        assert_eq!(patterns[0].pieces(), [(1, false, 1), (2, false, 1)]);
    }
}
