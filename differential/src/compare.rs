//! One call on one input, by the engine and by the reference.

use crate::lent::MARGIN;
use crate::table::{Answer, Call, Input};
use std::thread::{scope, Builder};

/// SAW_STACK of include/saw_engine.h.
const STACK: usize = 65_536;

/// The answer, if engine and reference leave the same in every word, margins included, and the
/// engine's inputs are as they were; otherwise what differs.
pub fn compare(call: &Call, input: &Input, on_small_stack: bool) -> Result<Answer, String> {
    let words = Input {
        job: input.job.clone(),
        own: input.own.clone(),
        lengths: input.lengths,
        lent: Vec::new(),
    };
    let mut by_engine = input.lent.clone();
    let mut by_reference = input.lent.clone();
    let mut engine = || (call.engine)(&words, &mut by_engine);
    let answer = match on_small_stack {
        true => small_stack(engine),
        false => engine(),
    };
    let expected = (call.reference)(input, &mut by_reference);
    if answer != expected {
        return Err(format!("{answer:?}, and not {expected:?}"));
    }
    if words.job != input.job || words.own != input.own {
        return Err("an input is changed".to_string());
    }
    for (index, (engine, reference)) in by_engine.iter().zip(&by_reference).enumerate() {
        if let Some(at) = (0..engine.len()).find(|&at| engine[at] != reference[at]) {
            let at = at as isize - MARGIN as isize;
            return Err(format!("lent buffer {} differs at word {at}", index + 1));
        }
    }
    Ok(answer)
}

/// What a function answers on a stack of so many bytes as the header names; one that needs more
/// ends the run.
fn small_stack(function: impl FnOnce() -> Answer + Send) -> Answer {
    scope(|threads| {
        let thread = Builder::new().stack_size(STACK);
        let thread = thread.spawn_scoped(threads, function).expect("a thread");
        thread.join().expect("the engine returns")
    })
}
