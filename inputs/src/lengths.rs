//! The two lengths from which an offcut is usable.

use crate::random::Random;

/// Two lengths within their limits: most are no longer than the board's sides, so that some offcuts
/// reach them and others do not.
pub fn valid_lengths(random: &mut Random, board: [u16; 2]) -> [u16; 2] {
    board.map(|side| match random.below(12) {
        0 => 1,
        1 => 10_000,
        _ => random.between(1, side.clamp(1, 10_000)),
    })
}

/// Two lengths, one pair of ten with a length outside its limits.
pub fn any_lengths(random: &mut Random, board: [u16; 2]) -> [u16; 2] {
    let mut lengths = valid_lengths(random, board);
    if random.once_in(10) {
        lengths[random.below(2)] = random.pick(&[0, 10_001, 65_535]);
    }
    lengths
}
