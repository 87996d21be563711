//! The engine's five calls, as include/saw_engine.h declares them.

/// What a call leaves: the refusal number or 0, the first value or the place, and the further values.
pub type Answer<const N: usize> = [u32; N];

/// What each word of `answer` holds before a call.
const OLD: u32 = 0xDEAD_BEEF;

#[link(name = "engine", kind = "static", modifiers = "-bundle")]
extern "C" {
    fn saw_list(
        job: *const u16,
        job_len: usize,
        plates: *mut u16,
        plates_len: usize,
        cuts: *mut u16,
        cuts_len: usize,
        answer: *mut u32,
    );
    fn saw_test_plan(
        job: *const u16,
        job_len: usize,
        counts: *const u16,
        counts_len: usize,
        plates: *mut u16,
        plates_len: usize,
        cuts: *mut u16,
        cuts_len: usize,
        answer: *mut u32,
    );
    fn saw_test_prices(
        job: *const u16,
        job_len: usize,
        prices: *const u16,
        prices_len: usize,
        plates: *mut u16,
        plates_len: usize,
        cuts: *mut u16,
        cuts_len: usize,
        answer: *mut u32,
    );
    fn saw_unfold(
        job: *const u16,
        job_len: usize,
        counts: *const u16,
        counts_len: usize,
        first_length: u16,
        second_length: u16,
        plates: *mut u16,
        plates_len: usize,
        cuts: *mut u16,
        cuts_len: usize,
        placements: *mut u16,
        placements_len: usize,
        offcuts: *mut u16,
        offcuts_len: usize,
        answer: *mut u32,
    );
    fn saw_fold(
        job: *const u16,
        job_len: usize,
        layouts: *const u16,
        layouts_len: usize,
        plates: *mut u16,
        plates_len: usize,
        cuts: *mut u16,
        cuts_len: usize,
        counts: *mut u16,
        counts_len: usize,
        answer: *mut u32,
    );
}

/// Calls a function of the engine: slices that are passed in, single words, slices that are lent, and
/// the answer, whose number of words is that of the function's result here.
macro_rules! call {
    ($function:ident, [$($passed:expr),*], [$($word:expr),*], [$($lent:expr),*]) => {{
        let mut answer = [OLD; _];
        // SAFETY: each pointer and length are those of a slice, the lent slices are borrowed
        // uniquely, and `answer` has the words that the header says.
        unsafe {
            $function(
                $($passed.as_ptr(), $passed.len(),)*
                $($word,)*
                $($lent.as_mut_ptr(), $lent.len(),)*
                answer.as_mut_ptr(),
            )
        };
        answer
    }};
}

pub fn list(job: &[u16], plates: &mut [u16], cuts: &mut [u16]) -> Answer<3> {
    call!(saw_list, [job], [], [plates, cuts])
}

pub fn test_plan(job: &[u16], counts: &[u16], plates: &mut [u16], cuts: &mut [u16]) -> Answer<3> {
    call!(saw_test_plan, [job, counts], [], [plates, cuts])
}

pub fn test_prices(job: &[u16], prices: &[u16], plates: &mut [u16], cuts: &mut [u16]) -> Answer<3> {
    call!(saw_test_prices, [job, prices], [], [plates, cuts])
}

pub fn unfold(
    job: &[u16],
    counts: &[u16],
    [first, second]: [u16; 2],
    plates: &mut [u16],
    cuts: &mut [u16],
    placements: &mut [u16],
    offcuts: &mut [u16],
) -> Answer<4> {
    call!(
        saw_unfold,
        [job, counts],
        [first, second],
        [plates, cuts, placements, offcuts]
    )
}

pub fn fold(
    job: &[u16],
    layouts: &[u16],
    plates: &mut [u16],
    cuts: &mut [u16],
    counts: &mut [u16],
) -> Answer<3> {
    call!(saw_fold, [job, layouts], [], [plates, cuts, counts])
}
