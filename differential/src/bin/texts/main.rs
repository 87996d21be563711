//! The engine's two texts against the reference: many texts of each kind, valid, at the limits and
//! damaged, handed over whole and in parts; every byte of the answer and beside it is compared.
//!
//! usage: texts [TEXTS [SEED]]          (100,000 texts of each kind and seed 1, if not given)
//!
//! Prints for each kind how often a text was accepted and how often it was given each refusal number.
//! Ends with 1 at the first difference, which it prints with the text, and also if a number that a
//! text can be given never came.

use std::process::ExitCode;
use std::thread::{scope, Builder};

mod compare;
mod engine;
mod parts;
mod tally;

use compare::{compare, Room};
use inputs::longest::long_texts;
use inputs::subjects::Known;
use inputs::{Random, Text};
use parts::ends;
use tally::Tally;

/// The stack on which texts are answered, in bytes.
const STACK: usize = 262_144;

/// The longest text that is printed where answers differ.
const PRINTED: usize = 8_000;

/// What the texts are made from, and where their answers go.
struct Source {
    random: Random,
    known: Known,
    room: Room,
}

impl Source {
    /// The texts that come first: those at the limits, and one of each job of `data/`.
    fn first(&mut self, kind: Text) -> Vec<Vec<u8>> {
        let mut texts: Vec<Vec<u8>> = (long_texts(kind).into_iter())
            .map(|long| long.text)
            .collect();
        for number in 0..self.known.count() {
            let subject = self.known.get(number).expect("a number below their number");
            texts.push(kind.valid(&mut self.random, subject));
        }
        texts
    }

    /// Compares the answers to a text, and gives it.
    fn compare(&mut self, kind: Text, text: &[u8]) -> Result<Vec<u8>, String> {
        let Source { random, room, .. } = self;
        let ends = ends(random, text);
        compare(random, room, kind, text, &ends).map_err(|difference| {
            let shown = &text[..text.len().min(PRINTED)];
            format!(
                "{}: {difference}; parts end at {:?}; the text, of {} bytes:\n{}",
                kind.name(),
                &ends[..ends.len().min(60)],
                text.len(),
                shown.escape_ascii().to_string().replace("\\n", "\n"),
            )
        })
    }

    /// Answers so many texts, and says how often what was answered.
    fn run(&mut self, kind: Text, texts: usize) -> Result<Tally, String> {
        let mut tally = Tally::new();
        let first = self.first(kind);
        for text in first.iter().take(texts) {
            tally.add(&self.compare(kind, text)?);
        }
        for _ in first.len()..texts {
            let text = kind.any(&mut self.random, &self.known);
            tally.add(&self.compare(kind, &text)?);
        }
        let covers = tally.covers(kind);
        covers.map_err(|what| format!("{}: {what} ({tally})", kind.name()))?;
        Ok(tally)
    }
}

/// Answers texts of both kinds.
fn run(texts: usize, seed: u64) -> Result<(), String> {
    let mut random = Random::new(seed);
    let room = Room::new(&mut random);
    let known = Known::of_data();
    let mut source = Source {
        random,
        known,
        room,
    };
    for kind in Text::BOTH {
        let tally = source.run(kind, texts)?;
        println!("{}: {texts} texts, seed {seed}: {tally}", kind.name());
    }
    Ok(())
}

fn main() -> ExitCode {
    let mut arguments = std::env::args().skip(1);
    let mut number = |default: u64| match arguments.next().map(|word| word.parse()) {
        None => Some(default),
        Some(parsed) => parsed.ok(),
    };
    let (Some(texts), Some(seed)) = (number(100_000), number(1)) else {
        eprintln!("usage: texts [TEXTS [SEED]]");
        return ExitCode::from(2);
    };
    let result = scope(|threads| {
        let thread = Builder::new().stack_size(STACK);
        let thread = thread.spawn_scoped(threads, || run(texts as usize, seed));
        thread
            .expect("a thread")
            .join()
            .expect("every text is answered")
    });
    match result {
        Ok(()) => ExitCode::SUCCESS,
        Err(difference) => {
            eprintln!("{difference}");
            ExitCode::FAILURE
        }
    }
}
