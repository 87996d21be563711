//! Buffers lent to a call: of full size, longer or shorter, filled with arbitrary words, and with
//! words before and after them that no call may touch.

use inputs::Random;
use reference::buffers::Kind;

/// The words before a lent buffer, and as many after it.
pub const MARGIN: usize = 16;

/// Arbitrary words, of which buffers are cut.
pub struct Junk(Vec<u16>);

impl Junk {
    pub fn new(random: &mut Random) -> Junk {
        Junk((0..120_000).map(|_| random.between(0, 65_535)).collect())
    }

    /// A buffer before the call, with its margins.
    fn buffer(&self, random: &mut Random, length: usize) -> Vec<u16> {
        let length = length + 2 * MARGIN;
        let start = random.below(self.0.len() - length);
        self.0[start..start + length].to_vec()
    }

    /// The buffers of a call, of full size or longer; in one call of ten one of them is shorter.
    pub fn lent(&self, random: &mut Random, kinds: &[Kind]) -> Vec<Vec<u16>> {
        let short = random.once_in(10).then(|| random.below(kinds.len()));
        let buffer = |(index, kind): (usize, &Kind)| {
            let full = kind.full_size;
            let length = match short == Some(index) {
                true => random.pick(&[0, 1, 5, full / 2, full - 1]),
                false => full + random.pick(&[0, 0, 0, 1, 9, 1_000]),
            };
            self.buffer(random, length)
        };
        kinds.iter().enumerate().map(buffer).collect()
    }

    /// The buffers of a call, each of full size.
    pub fn lent_in_full(&self, random: &mut Random, kinds: &[Kind]) -> Vec<Vec<u16>> {
        let buffer = |kind: &Kind| self.buffer(random, kind.full_size);
        kinds.iter().map(buffer).collect()
    }
}
