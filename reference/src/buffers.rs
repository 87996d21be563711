//! Buffers: their full sizes and what a call leaves in the lent ones (document 01, "Where each
//! number is given").

use crate::refusal::{ensure, Refusal, BUFFER_TOO_SHORT};

/// A buffer that a call is lent or passed: the place that 5 names and the full size in words.
#[derive(Debug, Clone, Copy, PartialEq, Eq)]
pub struct Kind {
    pub place: usize,
    pub full_size: usize,
}

/// Lent plates: 2,048 records of 4 words.
pub const PLATES: Kind = Kind {
    place: 1,
    full_size: 8_192,
};
/// Lent cuts: 8,192 records of 4 words.
pub const CUTS: Kind = Kind {
    place: 2,
    full_size: 32_768,
};
/// Counts, lent or passed in: 8,192 words.
pub const COUNTS: Kind = Kind {
    place: 3,
    full_size: 8_192,
};
/// Lent placements: 4,000 records of 9 words.
pub const PLACEMENTS: Kind = Kind {
    place: 4,
    full_size: 36_000,
};

/// Lent offcuts: 8,000 records of 6 words (document 02, Two).
pub const OFFCUTS: Kind = Kind {
    place: 5,
    full_size: 48_000,
};

/// Refuses with 5 the first buffer that is shorter than its full size.
pub fn ensure_full(sizes: &[(Kind, usize)]) -> Result<(), Refusal> {
    for (kind, size) in sizes {
        ensure(*size >= kind.full_size, BUFFER_TOO_SHORT, kind.place)?;
    }
    Ok(())
}

/// Hands back the answer of a call and leaves its lent buffers as document 01 fixes: after
/// success each holds its contents and then 0 to its end; after 5 all are unchanged; after any
/// other refusal every word of them is 0.
pub fn hand_back<T, const N: usize>(
    answer: Result<(T, [Vec<u16>; N]), Refusal>,
    lent: [&mut [u16]; N],
) -> Result<T, Refusal> {
    match answer {
        Ok((result, contents)) => {
            for (buffer, words) in lent.into_iter().zip(contents) {
                let (used, unused) = buffer.split_at_mut(words.len());
                used.copy_from_slice(&words);
                unused.fill(0);
            }
            Ok(result)
        }
        Err(refusal) => {
            if refusal.number != BUFFER_TOO_SHORT {
                lent.into_iter().for_each(|buffer| buffer.fill(0));
            }
            Err(refusal)
        }
    }
}
