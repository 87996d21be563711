//! Jobs that are too large, and their parts.

use super::*;
use crate::job::tests::{job, job_a, job_on, job_with_leave};

/// The cabinets of examples/, in three stages.
fn cabinets() -> Job {
    Job::read(include_str!("../../../examples/cabinets.csv")).unwrap()
}

/// Each item type stands in one part, and the saw accepts a first plan for each of them.
fn check(job: &Job, parts: &Parts) {
    let mut types = parts.concat();
    types.sort_unstable();
    assert_eq!(types, (1..=job.items.len()).collect::<Vec<_>>());
    for types in parts {
        let part = part(job, types);
        let listing = Listing::of(&part).unwrap();
        let counts = first::counts(&part).unwrap();
        let text = part.text() + &plan::lines(&listing, &counts);
        let answer = String::from_utf8(reference::saw_text(text.as_bytes())).unwrap();
        let last: Vec<&str> = answer.lines().last().unwrap().split_whitespace().collect();
        assert_eq!(last[0], "8", "{answer}");
        assert_eq!(last[1], first_cost(&part).unwrap().to_string());
    }
}

#[test]
fn an_ordinary_job_of_small_parts_is_parted() {
    let job = cabinets();
    assert_eq!(extent(&job), Some([17_086, 152_550]));
    assert_eq!(refusal(&job), Some(6));
    let parts = parts(&job).unwrap();
    assert_eq!(parts.len(), 3);
    check(&job, &parts);
    assert_eq!(part(&job, &[12, 2]).names, ["cleat", "bottom"]);
}

#[test]
fn a_job_on_two_sizes_with_a_blade_is_parted() {
    let items: Vec<[usize; 3]> = (0..12).map(|i| [101 + 37 * i, 103 + 41 * i, 5]).collect();
    let mut large = job_on("3E", &[[2800, 2070, 90], [2440, 1220, 50]], &items);
    large.blade = 4;
    let parts = parts(&large).unwrap();
    assert!(parts.len() > 1);
    check(&large, &parts);
}

#[test]
fn a_job_of_too_many_pieces_is_parted() {
    let text = "1 2 0 1 3 0\n10 0 9 7 1\n2 1 5 4 4000 0\n2 2 3 3 3000 0\n2 3 2 2 999 0\n";
    assert!(Job::read(text).unwrap_err().contains("office split"));
    let many = Job::read_large(text).unwrap();
    assert_eq!(refusal(&many), Some(4));
    let parts = parts(&many).unwrap();
    assert_eq!(parts.len(), 2);
    check(&many, &parts);
}

#[test]
fn a_job_that_the_saw_takes_stays_whole() {
    assert_eq!(parts(&job_a()), Some(vec![vec![1, 2]]));
    let (told, parts) = report(&job_a());
    assert_eq!(parts, None);
    assert!(
        told.contains("6 plate types and 8 cuts; the saw takes it."),
        "{told}"
    );
    assert!(told.ends_with("No split is needed.\n"), "{told}");
}

#[test]
fn every_mode_that_takes_the_job_whole_is_told() {
    let items = [
        [720, 560, 3, 1],
        [400, 250, 7, 1],
        [380, 240, 5, 0],
        [600, 110, 6, 0],
        [250, 90, 9, 1],
    ];
    let job = Job {
        blade: 4,
        ..job_with_leave("3N", [2440, 1220], &items)
    };
    let (told, parts) = report(&job);
    let whole = "\nWhole, the job fits mode 2E, where a first plan costs 2; and 2N, where a first plan costs 2.\n";
    assert!(told.contains(whole), "{told}");
    assert!(told.contains("\nIn mode 3N it takes 2 jobs, whose first plans together cost 2.\n"));
    assert_eq!(parts.map(|parts| parts.len()), Some(2));
}

#[test]
fn an_item_type_that_is_too_large_alone_is_told() {
    let fine = job_with_leave("3N", [10_000, 10_000], &[[97, 61, 1, 1]]);
    assert_eq!(parts(&fine), None);
    let (told, parts) = report(&fine);
    assert_eq!(parts, None);
    for part in [
        "Mode 3N: 1 piece of 1 item type, 14,161 plate types",
        "In mode 3N an item type is too large alone, so that no split helps.",
        "In mode 3N and without leave to turn, with 265 plate types and 265 cuts, it takes one job",
    ] {
        assert!(told.contains(part), "{part}\n{told}");
    }
    assert_eq!(
        extent(&job("3N", [10_000, 10_000], &[[3, 2, 1], [5, 7, 1]])),
        None
    );
}

#[test]
fn the_report_says_what_makes_the_job_large() {
    let (told, parts) = report(&cabinets());
    for part in [
        "Mode 3N: 144 pieces of 12 item types, 17,086 plate types and 152,550 cuts; the saw refuses it with 6.",
        "\n2E          1,095    11,435            2                1,300\n",
        "\nThe job fits no mode whole.\nIn mode 3N it takes 3 jobs, whose first plans together cost 1,400.\n",
        "alone\n  12      180       60     10,056     73,399        296        551  cleat, turns\n",
        "\njob 3: item types 12; 24 pieces, 296 plate types and 551 cuts; first plan's cost 100\n",
    ] {
        assert!(told.contains(part), "{part}\n{told}");
    }
    assert_eq!(parts.unwrap().len(), 3);
    // The table of modes stands in the kit's README.
    let readme = include_str!("../../README.md");
    for line in told.lines().skip(3).take(5) {
        assert!(readme.contains(&format!("\n    {line}\n")), "{line}");
    }
    let mut without = cabinets();
    without.items.truncate(6);
    without.names.truncate(6);
    without.items[2].leave = false;
    let (told, _) = report(&without);
    assert!(told.contains("No split is needed."), "{told}");
}
