//! The engine's static library against the reference: each call on many random inputs, valid, at the
//! limits and damaged; every word of the answer and of every lent buffer is compared.
//!
//! usage: differential [INPUTS [SEED]]          (100,000 inputs for each call and seed 1, if not given)
//!
//! Prints for each call how often it accepted and how often it gave each refusal number. Ends with 1 at
//! the first difference, which it prints, and also if a number that a call can give never came, or
//! if it never came to its largest values.

use std::process::ExitCode;

mod compare;
mod lent;
mod own;
mod table;
mod tally;

use compare::compare;
use inputs::damage::damage_job;
use inputs::subjects::{Known, Subject};
use inputs::Random;
use lent::{Junk, MARGIN};
use table::{Call, Input, CALLS};
use tally::Tally;

/// What the inputs of all calls are made from.
struct Source {
    random: Random,
    junk: Junk,
    known: Known,
}

impl Source {
    fn new(seed: u64) -> Source {
        let mut random = Random::new(seed);
        let junk = Junk::new(&mut random);
        let known = Known::of_data();
        Source {
            random,
            junk,
            known,
        }
    }

    /// An input, by its number: first each job of `data/` with valid words and buffers of full size,
    /// then random ones, of which most are of small jobs.
    fn input(&mut self, call: &Call, number: usize) -> Input {
        let Source {
            random,
            junk,
            known,
        } = self;
        if let Some(subject) = known.get(number) {
            return Input {
                job: subject.job().to_vec(),
                own: call.own.valid(random, subject),
                lengths: subject.valid_lengths(random),
                lent: junk.lent_in_full(random, call.lent),
            };
        }
        let small;
        let subject = match known.pick(random) {
            Some(subject) => subject,
            None => {
                small = Subject::small(random);
                &small
            }
        };
        let mut job = subject.job().to_vec();
        if random.once_in(6) {
            damage_job(random, &mut job);
        }
        Input {
            job,
            own: call.own.any(random, subject),
            lengths: subject.any_lengths(random),
            lent: junk.lent(random, call.lent),
        }
    }
}

/// Runs a call, and says how often it gave what.
fn run(call: &Call, source: &mut Source, inputs: usize) -> Result<Tally, String> {
    let mut tally = Tally::new(call);
    for number in 0..inputs {
        let input = source.input(call, number);
        let answer = compare(call, &input, number < source.known.count())
            .map_err(|difference| format!("{}: {difference}", describe(call, &input)))?;
        tally.add(&answer);
    }
    tally.covers(call)?;
    Ok(tally)
}

/// An input in words, the first sixty of its own.
fn describe(call: &Call, input: &Input) -> String {
    let sizes: Vec<usize> = (input.lent.iter())
        .map(|buffer| buffer.len() - 2 * MARGIN)
        .collect();
    let own = &input.own[..input.own.len().min(60)];
    format!(
        "{}: job {:?}, {} words {own:?}, lengths {:?}, buffers of {sizes:?} words",
        call.name,
        input.job,
        input.own.len(),
        input.lengths,
    )
}

fn main() -> ExitCode {
    let mut arguments = std::env::args().skip(1);
    let mut number = |default: u64| match arguments.next().map(|word| word.parse()) {
        None => Some(default),
        Some(parsed) => parsed.ok(),
    };
    let (Some(inputs), Some(seed)) = (number(100_000), number(1)) else {
        eprintln!("usage: differential [INPUTS [SEED]]");
        return ExitCode::from(2);
    };
    let mut source = Source::new(seed);
    for call in &CALLS {
        match run(call, &mut source, inputs as usize) {
            Ok(tally) => println!("{}: {inputs} inputs, {tally}", call.name),
            Err(difference) => {
                eprintln!("{difference}");
                return ExitCode::FAILURE;
            }
        }
    }
    ExitCode::SUCCESS
}
