//! Where the parts end in which a text is handed over.

use inputs::Random;

/// The longest text that is handed over byte by byte.
const BYTE_BY_BYTE: usize = 5_000;

/// Places where parts end: none, each byte, each line, beside each line's end, parts of one length, or
/// a few anywhere. Some do not rise, and some are past the text; those are passed over.
pub fn ends(random: &mut Random, text: &[u8]) -> Vec<u32> {
    let length = text.len();
    let places: Vec<usize> = match random.below(8) {
        0 => Vec::new(),
        1 if length <= BYTE_BY_BYTE => (1..=length).collect(),
        2 => line_ends(text).collect(),
        3 => line_ends(text).map(|end| end - 1).collect(),
        4 => line_ends(text).flat_map(|end| [end - 1, end + 1]).collect(),
        5 => {
            let least = length / 2_000 + 1;
            let step = least + random.below(100);
            (0..length).step_by(step).collect()
        }
        _ => (0..random.below(12))
            .map(|_| anywhere(random, length))
            .collect(),
    };
    places.into_iter().map(|place| place as u32).collect()
}

/// The places behind each byte 10.
fn line_ends(text: &[u8]) -> impl Iterator<Item = usize> + '_ {
    let ends = |(at, &byte): (usize, &u8)| (byte == b'\n').then_some(at + 1);
    text.iter().enumerate().filter_map(ends)
}

/// A place in the text, at its ends, or past it.
fn anywhere(random: &mut Random, length: usize) -> usize {
    match random.below(12) {
        0 => 0,
        1 => length,
        2 => length + 1,
        3 => u32::MAX as usize,
        _ => random.below(length + 1),
    }
}
