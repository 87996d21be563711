//! Without leave nothing is turned, with a blade of no width nothing is lost to it, and one size at a
//! cost of 1 is the board: on every such job of `data/` plates, cuts, plans and layouts are those that
//! document 01 alone gives, but for the cost of a plate, for the item word, which is doubled, and for size and
//! turn, which are 0.

use reference::instances::all_jobs;
use reference::instances::inputs::Inputs;
use reference::instances::outcome;

/// What the base version's reference answers on every job without a blade, in one number.
const BASE: u64 = 0xAEA2_B25F_465E_60A0;

/// A checksum of numbers (FNV-1a over their four bytes).
pub struct Checksum(pub u64);

impl Checksum {
    /// The sum of no numbers.
    pub fn new() -> Checksum {
        Checksum(0xCBF2_9CE4_8422_2325)
    }

    pub fn add(&mut self, numbers: impl IntoIterator<Item = u32>) {
        for byte in numbers.into_iter().flat_map(u32::to_le_bytes) {
            self.0 = (self.0 ^ u64::from(byte)).wrapping_mul(0x100_0000_01B3);
        }
    }

    pub fn add_words(&mut self, words: &[u16]) {
        self.add(words.iter().map(|&word| u32::from(word)));
    }
}

/// The cuts' records with the item type as item word.
fn with_types(cuts: &[u16]) -> Vec<u16> {
    let record = |cut: &[u16]| {
        assert_eq!(cut[1] % 2, 0);
        [cut[0], cut[1] / 2, cut[2], cut[3]]
    };
    cuts.chunks(4).flat_map(record).collect()
}

/// The plates' records without the cost.
fn without_costs(plates: &[u16]) -> Vec<u16> {
    let records = plates.chunks(4).flat_map(|plate| &plate[..3]);
    records.copied().collect()
}

/// The placements without size and turn.
fn without_size_and_turn(placements: &[u16]) -> Vec<u16> {
    let line = |line: &[u16]| {
        assert_eq!([line[1], line[8]], [0, 0]);
        [&line[..1], &line[2..8]].concat()
    };
    placements.chunks(9).flat_map(line).collect()
}

#[test]
fn without_leave_blade_and_sizes_every_job_is_answered_as_by_the_base() {
    let mut sum = Checksum::new();
    let plain = |words: &[u16]| words[2] == 1 && words[4] == 0 && words[7] == 1;
    for job in all_jobs().into_iter().filter(|job| plain(&job.words)) {
        let [mut plates, mut cuts] = [vec![0; 8_192], vec![0; 32_768]];
        match reference::list(&job.words, &mut plates, &mut cuts) {
            Ok(listed) => sum.add([listed.residuals, listed.cuts]),
            Err(refusal) => sum.add([refusal.number, refusal.place]),
        }
        sum.add_words(&without_costs(&plates));
        sum.add_words(&with_types(&cuts));
        let Ok(inputs) = Inputs::of(&job.words) else {
            continue;
        };
        let found = outcome::of(&job.words, &inputs).unwrap();
        sum.add_words(&inputs.counts);
        sum.add_words(&inputs.prices);
        sum.add_words(&without_size_and_turn(&inputs.layouts));
        let bound = found.bound;
        sum.add([found.outlay.boards, bound.sum, bound.d]);
        sum.add([found.folded.boards]);
        sum.add([found.unfolded.boards, found.unfolded.pieces]);
        sum.add_words(&without_size_and_turn(&found.placements));
        sum.add_words(&found.counts);
    }
    assert_eq!(sum.0, BASE, "{:#x}", sum.0);
}
