//! Damaged files of every other kind: jobs, tables, instances, solutions and outputs are read, or what is
//! wrong with them is told.

mod random;

use office::check::check;
use office::instances;
use office::job::Job;
use office::listing::Listing;
use office::plan;
use office::solution::{Names, Solution};
use random::Random;
use std::fs;

/// What is set into a text, or in the place of a part of it.
const PARTS: [&str; 16] = [
    "",
    " ",
    "0",
    "-1",
    "9",
    "1e30",
    "18446744073709551615",
    "99999999999999999999",
    "#",
    "\"",
    ",",
    ";",
    "\n",
    "\r",
    "\u{1}",
    "×",
];

impl Random {
    /// A text with some letters or lines changed, left out, doubled or cut off.
    fn damaged(&mut self, text: &str) -> String {
        let mut text = text.to_string();
        for _ in 0..=self.below(3) {
            let places: Vec<usize> = text.char_indices().map(|(place, _)| place).collect();
            if places.is_empty() {
                break;
            }
            let place = places[self.below(places.len())];
            let part = PARTS[self.below(PARTS.len())];
            // A whole word now and then, so that numbers are exchanged more often than spoilt.
            let word = text[place..].find([' ', ',', '\n']).unwrap_or(0);
            let letter = text[place..].chars().next().map_or(0, char::len_utf8);
            match self.below(6) {
                0 => text.truncate(place),
                1 => text.insert_str(place, part),
                2 => text = self.line_damaged(&text),
                3 => text.replace_range(place..place + word, part),
                _ => text.replace_range(place..place + letter, part),
            }
        }
        text
    }

    /// A text with a line left out or set once more.
    fn line_damaged(&mut self, text: &str) -> String {
        let mut lines: Vec<&str> = text.split_inclusive('\n').collect();
        let line = self.below(lines.len());
        match self.below(2) {
            0 => drop(lines.remove(line)),
            _ => lines.insert(self.below(lines.len()), lines[line]),
        }
        lines.concat()
    }
}

/// The text of a file, from the folder of the kit.
fn file(name: &str) -> String {
    fs::read_to_string(format!("{}/{name}", env!("CARGO_MANIFEST_DIR"))).unwrap()
}

/// How many of so many damaged texts are read.
fn read(seed: u64, text: &str, rounds: usize, is_read: impl Fn(&str) -> bool) -> usize {
    let mut random = Random(seed);
    let texts = (0..rounds).map(|_| random.damaged(text));
    texts.filter(|text| is_read(text)).count()
}

#[test]
fn damaged_jobs_are_read_or_told() {
    for name in [
        "a.job",
        "a.txt",
        "two-sizes.job",
        "kitchen.csv",
        "cabinets.csv",
    ] {
        let text = file(&format!("../examples/{name}"));
        let is_read = |text: &str| match Job::read(text) {
            Ok(job) => {
                let counted = Listing::of(&job).map(|listing| plan::of_text(text, &job, &listing));
                counted.is_ok() || Job::read_large(&job.text()).is_ok()
            }
            Err(fault) => {
                assert!(!fault.is_empty());
                false
            }
        };
        let many = read(21, &text, 2_000, is_read);
        assert!((20..1_980).contains(&many), "{name}: {many}");
    }
}

#[test]
fn damaged_instances_are_read_or_told() {
    for name in ["002-table-1.txt", "limits/numbers.txt", "limits/sizes.txt"] {
        let text = file(&format!("../data/{name}"));
        let is_read = |text: &str| instances::jobs(text, 4, true).is_ok();
        let many = read(22, &text, 400, is_read);
        assert!((10..390).contains(&many), "{name}: {many}");
    }
}

#[test]
fn damaged_solutions_are_read_or_told() {
    for folder in ["solutions", "stopped"] {
        let job = Job::read(&file(&format!("tests/{folder}/job.txt"))).unwrap();
        let listing = Listing::of(&job).unwrap();
        let names = Names::of(&job, &listing);
        let path = format!("{}/tests/{folder}", env!("CARGO_MANIFEST_DIR"));
        for entry in fs::read_dir(path).unwrap() {
            let name = entry.unwrap().file_name().into_string().unwrap();
            let text = file(&format!("tests/{folder}/{name}"));
            let is_read = |text: &str| match Solution::read(text, &names) {
                Ok(solution) => {
                    let counts = plan::counts(&listing, &solution);
                    if let Ok(counts) = counts {
                        let boards = plan::boards(&listing, &counts);
                        assert!(boards <= 4_000 * listing.cuts.len());
                        let _ = plan::accepted(&job, &listing, &counts);
                    }
                    true
                }
                Err(fault) => {
                    assert!(!fault.is_empty());
                    false
                }
            };
            read(23, &text, 300, is_read);
        }
    }
}

#[test]
fn damaged_outputs_are_read_or_told() {
    let text = file("../examples/a.txt");
    let output = String::from_utf8(reference::saw_text(text.as_bytes())).unwrap();
    for sent in [None, Some(text.as_bytes())] {
        let is_read = |output: &str| check(sent, output.as_bytes()).status() == 0;
        read(24, &output, 4_000, is_read);
    }
    let mut random = Random(25);
    for _ in 0..4_000 {
        let sent = random.damaged(&text);
        let output = random.damaged(&output);
        assert!(check(Some(sent.as_bytes()), output.as_bytes()).status() <= 2);
    }
}
