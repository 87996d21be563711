//! Buffers lent to the calls, at full size, with old contents. Every call made through them is
//! also checked for what it leaves there.

use super::check::Line;
use super::plain;
use reference::{Bound, Listed, Outlay, Refusal, Unfolded};

pub const PLATES: usize = 8_192;
pub const CUTS: usize = 32_768;
pub const COUNTS: usize = 8_192;
pub const PLACEMENTS: usize = 36_000;
pub const OFFCUTS: usize = 48_000;

/// Lengths that every offcut reaches.
pub const LEAST: [u16; 2] = [1, 1];

/// Words that no call writes.
pub fn junk(length: usize) -> Vec<u16> {
    vec![0xA5C3; length]
}

/// Counts followed by 0 up to the full size.
pub fn full_counts(counts: &[u16]) -> Vec<u16> {
    let mut words = counts.to_vec();
    words.resize(COUNTS.max(counts.len()), 0);
    words
}

/// Whether a buffer holds just these words and then 0 to its end.
pub fn holds(buffer: &[u16], words: &[u16]) -> bool {
    let (used, unused) = buffer.split_at(words.len());
    used == words && unused.iter().all(|&word| word == 0)
}

pub struct Lent {
    pub plates: Vec<u16>,
    pub cuts: Vec<u16>,
    pub counts: Vec<u16>,
    pub placements: Vec<u16>,
    pub offcuts: Vec<u16>,
    /// The job of the last call that succeeded, with the words of its plates and cuts.
    model: [Vec<u16>; 3],
}

impl Lent {
    pub fn new() -> Lent {
        Lent {
            plates: junk(PLATES),
            cuts: junk(CUTS),
            counts: junk(COUNTS),
            placements: junk(PLACEMENTS),
            offcuts: junk(OFFCUTS),
            model: Default::default(),
        }
    }

    pub fn list(&mut self, job: &[u16]) -> Result<Listed, Refusal> {
        let answer = reference::list(job, &mut self.plates, &mut self.cuts);
        self.check_model(job, answer.is_ok());
        answer
    }

    pub fn test_plan(&mut self, job: &[u16], counts: &[u16]) -> Result<Outlay, Refusal> {
        let counts = full_counts(counts);
        let answer = reference::test_plan(job, &counts, &mut self.plates, &mut self.cuts);
        self.check_model(job, answer.is_ok());
        answer
    }

    pub fn test_prices(&mut self, job: &[u16], prices: &[u16]) -> Result<Bound, Refusal> {
        let answer = reference::test_prices(job, prices, &mut self.plates, &mut self.cuts);
        self.check_model(job, answer.is_ok());
        answer
    }

    pub fn unfold(&mut self, job: &[u16], counts: &[u16]) -> Result<Unfolded, Refusal> {
        self.unfold_with(job, counts, LEAST)
    }

    pub fn unfold_with(
        &mut self,
        job: &[u16],
        counts: &[u16],
        lengths: [u16; 2],
    ) -> Result<Unfolded, Refusal> {
        let counts = full_counts(counts);
        let Lent {
            plates,
            cuts,
            placements,
            offcuts,
            ..
        } = self;
        let answer = reference::unfold(job, &counts, lengths, plates, cuts, placements, offcuts);
        let used = answer.map_or([0, 0], |unfolded| [unfolded.pieces, unfolded.offcuts]);
        let [pieces, left_over] = used.map(|number| number as usize);
        assert!(holds(&self.placements[9 * pieces..], &[]));
        assert!(holds(&self.offcuts[6 * left_over..], &[]));
        self.check_model(job, answer.is_ok());
        answer
    }

    pub fn fold(&mut self, job: &[u16], layouts: &[Line]) -> Result<Outlay, Refusal> {
        self.fold_words(job, &layouts.concat())
    }

    pub fn fold_words(&mut self, job: &[u16], layouts: &[u16]) -> Result<Outlay, Refusal> {
        let Lent {
            plates,
            cuts,
            counts,
            ..
        } = self;
        let answer = reference::fold(job, layouts, plates, cuts, counts);
        self.check_model(job, answer.is_ok());
        let used = answer.map_or(0, |_| self.model[2].len() / 4);
        assert!(self.counts[used..].iter().all(|&word| word == 0));
        answer
    }

    /// The lines that the last unfolding wrote.
    pub fn lines(&self) -> Vec<Line> {
        let lines = self
            .placements
            .chunks_exact(9)
            .map(|line| line.try_into().unwrap());
        lines.take_while(|line: &Line| line[0] != 0).collect()
    }

    /// The offcuts that the last unfolding wrote.
    pub fn left_over(&self) -> Vec<[u16; 6]> {
        let offcuts = self.offcuts.chunks_exact(6);
        let offcuts = offcuts.map(|offcut| offcut.try_into().unwrap());
        offcuts
            .take_while(|offcut: &[u16; 6]| offcut[0] != 0)
            .collect()
    }

    /// After success plates and cuts hold the listing, after these refusals nothing.
    fn check_model(&mut self, job: &[u16], success: bool) {
        if success && self.model[0] != job {
            let (plates, cuts) = plain::listing(job);
            self.model = [
                job.to_vec(),
                plain::plate_words(job, &plates),
                cuts.concat(),
            ];
        }
        let [_, plates, cuts] = &self.model;
        let [plates, cuts] = if success {
            [plates, cuts]
        } else {
            [&vec![], &vec![]]
        };
        assert!(holds(&self.plates, plates));
        assert!(holds(&self.cuts, cuts));
    }
}
