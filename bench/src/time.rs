//! Times of the processor: the best of several rounds, engine and reference in turn.

use crate::task::{measured_call, Call, Input, Lent, Side};
use std::time::Duration;

/// Rounds of each side.
pub const ROUNDS: usize = 25;

/// The least time of one round, so that the clock's steps do not count.
const LEAST: Duration = Duration::from_millis(2);

/// The seconds of one call by the engine and by the reference. Their answers have to be the same.
pub fn seconds(call: Call, input: &Input) -> [f64; 2] {
    let lent = &mut Lent::new();
    let sides = [Side::Engine, Side::Reference];
    let answers = sides.map(|side| measured_call(side, call, input, lent));
    assert!(answers[0] == answers[1], "{}: {answers:?}", call.name());
    let times = sides.map(|side| times_in_a_round(side, call, input, lent));
    let mut best = [f64::INFINITY; 2];
    for _ in 0..ROUNDS {
        for ((best, side), times) in best.iter_mut().zip(sides).zip(times) {
            let round = round(side, call, input, lent, times);
            *best = best.min(round.as_secs_f64() / f64::from(times));
        }
    }
    best
}

/// How often a call is done in a round.
fn times_in_a_round(side: Side, call: Call, input: &Input, lent: &mut Lent) -> u32 {
    let mut times = 1;
    while round(side, call, input, lent, times) < LEAST {
        times *= 2;
    }
    times
}

fn round(side: Side, call: Call, input: &Input, lent: &mut Lent, times: u32) -> Duration {
    let began = processor_time();
    for _ in 0..times {
        measured_call(side, call, input, lent);
    }
    processor_time() - began
}

/// The time that this thread has had a processor.
fn processor_time() -> Duration {
    const CLOCK_THREAD_CPUTIME_ID: i32 = 3;
    extern "C" {
        fn clock_gettime(clock: i32, time: *mut [i64; 2]) -> i32;
    }
    let mut time = [0; 2];
    // SAFETY: seconds and nanoseconds are written, two numbers of 64 bits on x86-64.
    let failed = unsafe { clock_gettime(CLOCK_THREAD_CPUTIME_ID, &mut time) };
    assert!(failed == 0, "the clock of the thread is read");
    Duration::new(time[0] as u64, time[1] as u32)
}
