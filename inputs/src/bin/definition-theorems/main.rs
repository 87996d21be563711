//! Writes theorems for antt: on random small inputs the definitions of document 01, with the requests
//! of document 02 that are in them, compute to the answers of the reference.
//!
//! Arguments: the folder to write to, the number of theorems, the seed. Standard output says what
//! is compared and how much of it is refused.

mod antt;
mod calls;
mod offcuts;
mod own_cuts;
mod structures;
mod texts;

use antt::Equation;
use calls::Call;
use inputs::model::SMALL;
use inputs::Random;
use reference::{Job, Listing};
use std::collections::BTreeMap;
use std::path::Path;
use std::{env, fs, io};

/// The most theorems of one file.
const MOST_OF_A_FILE: usize = 60;

/// An equation, and the number with which its input is refused, if it is.
pub struct Theorem {
    pub equation: Equation,
    pub refusal: Option<u32>,
}

/// What theorems speak of, which names their files; how many they are beside the others; and how
/// one is made.
type Subject = (&'static str, usize, fn(&mut Random) -> Theorem);

const SUBJECTS: [Subject; 17] = [
    ("Listing", 3, |random| calls::theorem(random, Call::Listing)),
    ("PlanTest", 3, |random| {
        calls::theorem(random, Call::PlanTest)
    }),
    ("PriceTest", 3, |random| {
        calls::theorem(random, Call::PriceTest)
    }),
    ("Unfolding", 4, |random| {
        calls::theorem(random, Call::Unfolding)
    }),
    ("Folding", 3, |random| calls::theorem(random, Call::Folding)),
    ("SawText", 14, texts::saw_theorem),
    ("ShownPlates", 8, texts::shown_theorem),
    ("FoldText", 12, texts::fold_theorem),
    ("Walk", 2, structures::walk_theorem),
    ("Sets", 3, structures::set_theorem),
    ("Rules", 2, structures::rules_theorem),
    ("Rectangles", 2, structures::rectangle_theorem),
    ("Cheapest", 1, structures::cheapest_theorem),
    ("Offcuts", 3, offcuts::offcuts_theorem),
    ("Areas", 3, offcuts::areas_theorem),
    ("Parts", 3, own_cuts::parts_theorem),
    ("ByParts", 3, own_cuts::run_theorem),
];

/// Whether the listing is small, if there is one: the words are a job's, and it is admitted.
pub fn is_small(words: &[u16]) -> bool {
    Job::from_words(words).map_or(true, |job| is_small_job(&job))
}

/// Whether the job's listing is small, if the job is admitted.
pub fn is_small_job(job: &Job) -> bool {
    job.admit().is_err() || Listing::walk(job, SMALL).is_ok()
}

/// The theorems of one subject, and how many are refused with each number.
#[derive(Default)]
struct Written {
    theorems: Vec<String>,
    refused: BTreeMap<u32, usize>,
}

fn main() -> io::Result<()> {
    let arguments: Vec<String> = env::args().skip(1).collect();
    let [folder, count, seed] = &arguments[..] else {
        panic!("arguments: folder, number of theorems, seed");
    };
    let [count, seed]: [u64; 2] = [count, seed].map(|word| word.parse().expect("a number"));
    let written = theorems(count as usize, seed);
    for ((subject, ..), written) in SUBJECTS.iter().zip(&written) {
        write_files(Path::new(folder), subject, &written.theorems)?;
    }
    print_summary(&written);
    Ok(())
}

/// As many theorems, each subject having its share of every part of them.
fn theorems(count: usize, seed: u64) -> Vec<Written> {
    let mut random = Random::new(seed);
    let shares = (0..SUBJECTS.len()).flat_map(|index| vec![index; SUBJECTS[index].1]);
    let shares: Vec<usize> = shares.collect();
    let mut all: Vec<Written> = SUBJECTS.iter().map(|_| Written::default()).collect();
    for &index in shares.iter().cycle().take(count) {
        let (subject, _, make) = SUBJECTS[index];
        let theorem = make(&mut random);
        let written = &mut all[index];
        let name = format!("{subject}-{}", written.theorems.len() + 1).to_lowercase();
        written.theorems.push(theorem.equation.theorem(&name));
        if let Some(number) = theorem.refusal {
            *written.refused.entry(number).or_default() += 1;
        }
    }
    all
}

/// Files of at most so many theorems, each with the names that they use.
fn write_files(folder: &Path, subject: &str, theorems: &[String]) -> io::Result<()> {
    for (number, part) in (1..).zip(theorems.chunks(MOST_OF_A_FILE)) {
        let path = folder.join(format!("{subject}{number}.antt"));
        fs::write(path, format!("{}\n{}", antt::HEAD, part.join("\n")))?;
    }
    Ok(())
}

/// How many theorems there are of each subject, how many of their inputs are refused, and those
/// by number.
fn print_summary(written: &[Written]) {
    let mut refused: BTreeMap<u32, usize> = BTreeMap::new();
    for ((subject, ..), written) in SUBJECTS.iter().zip(written) {
        let all = written.theorems.len();
        let some: usize = written.refused.values().sum();
        println!("{subject:<12}{all:>5} theorems,{some:>5} of a refusal");
        for (number, count) in &written.refused {
            *refused.entry(*number).or_default() += count;
        }
    }
    let all: usize = written.iter().map(|written| written.theorems.len()).sum();
    let some: usize = refused.values().sum();
    println!("{:<12}{all:>5} theorems,{some:>5} of a refusal", "together");
    let numbers = refused.iter();
    let numbers: Vec<_> = numbers
        .map(|(number, count)| format!("{number}: {count}"))
        .collect();
    println!("refusals by number: {}", numbers.join(", "));
}
