//! Buffers: full sizes, junk in them beforehand, and what stands in them afterwards (document
//! 01, "Where each number is given").

use crate::common::jobs::{job, job_a, PLAN_A, PRICES_A};
use crate::common::lent::{
    full_counts, holds, junk, COUNTS, CUTS, LEAST, OFFCUTS, PLACEMENTS, PLATES,
};
use crate::common::plain;
use crate::common::refused;
use reference::{Mode, Refusal};

const LINES: [[u16; 9]; 5] = [
    [1, 0, 1, 1, 1, 1, 0, 0, 0],
    [1, 0, 1, 2, 1, 2, 5, 0, 0],
    [1, 0, 2, 1, 1, 2, 0, 4, 0],
    [1, 0, 2, 2, 1, 2, 3, 4, 0],
    [2, 0, 1, 1, 1, 1, 0, 0, 0],
];

/// The offcuts of the same plan, all of them usable with the least lengths.
const LEFT_OVER: [[u16; 6]; 3] = [[1, 6, 4, 3, 3, 1], [2, 5, 0, 4, 4, 1], [2, 0, 4, 9, 3, 1]];

/// The full sizes in the order that 5 names: plates, cuts, counts, placements, offcuts.
const FULL: [usize; 5] = [PLATES, CUTS, COUNTS, PLACEMENTS, OFFCUTS];

#[derive(Debug, Clone, Copy, PartialEq)]
enum Call {
    List,
    TestPlan,
    TestPrices,
    Unfold,
    Fold,
}

const CALLS: [Call; 5] = [
    Call::List,
    Call::TestPlan,
    Call::TestPrices,
    Call::Unfold,
    Call::Fold,
];

impl Call {
    /// Whether the call has each of the five buffers, lent or passed in.
    fn has(self) -> [bool; 5] {
        match self {
            Call::List | Call::TestPrices => [true, true, false, false, false],
            Call::TestPlan | Call::Fold => [true, true, true, false, false],
            Call::Unfold => [true; 5],
        }
    }

    /// Makes the call on job words with its good input and these buffers; counts passed in are
    /// the plan, counts lent are the buffer.
    fn make(self, job: &[u16], buffers: &mut [Vec<u16>; 5]) -> Result<(), Refusal> {
        let [plates, cuts, counts, placements, offcuts] = buffers;
        let mut plan = full_counts(&PLAN_A);
        plan.resize(counts.len(), 0);
        match self {
            Call::List => reference::list(job, plates, cuts).map(|_| ()),
            Call::TestPlan => reference::test_plan(job, &plan, plates, cuts).map(|_| ()),
            Call::TestPrices => reference::test_prices(job, &PRICES_A, plates, cuts).map(|_| ()),
            Call::Unfold => {
                reference::unfold(job, &plan, LEAST, plates, cuts, placements, offcuts).map(|_| ())
            }
            Call::Fold => reference::fold(job, &LINES.concat(), plates, cuts, counts).map(|_| ()),
        }
    }

    /// What the buffers that the call is lent hold after success; none where it is lent none.
    fn contents(self) -> [Option<Vec<u16>>; 5] {
        let (plates, cuts) = plain::listing(&job_a());
        let counts = (self == Call::Fold).then(|| PLAN_A.to_vec());
        let placements = (self == Call::Unfold).then(|| LINES.concat());
        let offcuts = (self == Call::Unfold).then(|| LEFT_OVER.concat());
        [
            Some(plain::plate_words(&job_a(), &plates)),
            Some(cuts.concat()),
            counts,
            placements,
            offcuts,
        ]
    }
}

/// Buffers of junk, each so much longer or shorter than its full size.
fn buffers(differences: [isize; 5]) -> [Vec<u16>; 5] {
    std::array::from_fn(|index| junk(FULL[index].checked_add_signed(differences[index]).unwrap()))
}

#[test]
fn exact_and_longer_buffers_hold_the_contents_and_0_to_the_end() {
    for call in CALLS {
        for longer in [0, 1, 1_000] {
            let mut buffers = buffers([longer; 5]);
            assert_eq!(call.make(&job_a(), &mut buffers), Ok(()));
            for (buffer, contents) in buffers.iter().zip(call.contents()) {
                match contents {
                    Some(words) => assert!(holds(buffer, &words), "{call:?}"),
                    None => assert_eq!(*buffer, junk(buffer.len())),
                }
            }
        }
    }
}

#[test]
fn one_word_short_is_5_naming_the_buffer_and_changing_nothing() {
    for call in CALLS {
        for short in 0..5 {
            for longer in [0, 3] {
                let mut differences = [longer; 5];
                differences[short] = -1;
                let before = buffers(differences);
                let mut after = before.clone();
                let answer = call.make(&job_a(), &mut after);
                if call.has()[short] {
                    assert_eq!(answer, refused(5, short as u32 + 1), "{call:?}");
                    assert_eq!(after, before);
                } else {
                    assert_eq!(answer, Ok(()));
                }
            }
        }
    }
}

#[test]
fn the_first_short_buffer_is_named() {
    for call in CALLS {
        for pattern in 1..32 {
            let differences = std::array::from_fn(|index| -(pattern >> index & 1));
            let mut after = buffers(differences);
            let has = call.has();
            let first = (0..5).find(|&index| has[index] && differences[index] < 0);
            let answer = match first {
                Some(index) => refused(5, index as u32 + 1),
                None => Ok(()),
            };
            assert_eq!(
                call.make(&job_a(), &mut after),
                answer,
                "{call:?} {pattern}"
            );
        }
    }
}

#[test]
fn empty_buffers_are_short() {
    for call in CALLS {
        let mut empty = [const { Vec::new() }; 5];
        assert_eq!(call.make(&job_a(), &mut empty), refused(5, 1));
    }
}

/// Job A with a demand that its plan and layouts do not meet and with the board narrowed, or
/// with a fault in its own words.
fn refused_jobs() -> Vec<(Vec<u16>, [u32; 5])> {
    let high = job(Mode::TwoNonExact, [9, 7], &[[5, 4, 3], [3, 3, 3]]);
    let plates = job(Mode::TwoNonExact, [2_000, 2_000], &[[1, 1, 1], [1, 1, 1]]);
    let large = job(Mode::TwoNonExact, [4, 7], &[[5, 4, 2], [3, 3, 3]]);
    let mut outside = job_a();
    outside[10] = 0;
    vec![
        (high, [0, 11, 0, 11, 11]),
        (plates, [6; 5]),
        (large, [3; 5]),
        (outside, [2; 5]),
        (job_a()[1..].to_vec(), [1; 5]),
    ]
}

#[test]
fn after_any_other_refusal_every_word_is_0() {
    for (words, numbers) in refused_jobs() {
        for (call, number) in CALLS.into_iter().zip(numbers) {
            let mut after = buffers([2, 0, 1, 3, 4]);
            let answer = call.make(&words, &mut after);
            let found = answer.map_or_else(|refusal| refusal.number, |()| 0);
            assert_eq!(found, number, "{call:?}");
            if number == 0 {
                continue;
            }
            for (buffer, contents) in after.iter().zip(call.contents()) {
                match contents {
                    Some(_) => assert!(holds(buffer, &[]), "{call:?}"),
                    None => assert_eq!(*buffer, junk(buffer.len())),
                }
            }
        }
    }
}

#[test]
fn old_contents_have_no_influence() {
    let mut used = buffers([0; 5]);
    let other = job(Mode::ThreeNonExact, [30, 30], &[[3, 5, 1], [7, 4, 1]]);
    for call in CALLS {
        let [plates, cuts, ..] = &mut used;
        reference::list(&other, plates, cuts).unwrap();
        assert_eq!(call.make(&job_a(), &mut used), Ok(()));
        let (plates, cuts) = plain::listing(&job_a());
        assert!(holds(&used[0], &plain::plate_words(&job_a(), &plates)));
        assert!(holds(&used[1], &cuts.concat()));
    }
}

#[test]
fn counts_passed_in_are_not_spent() {
    let mut lent = buffers([0; 5]);
    let counts = full_counts(&PLAN_A);
    let kept = counts.clone();
    let [plates, cuts, _, placements, offcuts] = &mut lent;
    reference::unfold(&job_a(), &counts, LEAST, plates, cuts, placements, offcuts).unwrap();
    assert_eq!(counts, kept);
}
