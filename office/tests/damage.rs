//! Damaged texts: whatever the second implementation refuses is explained.

mod random;

use office::answer::{refusal, Answer};
use office::columns::{line, numbers};
use office::draw::page;
use office::explain::explain;
use office::job::Job;
use office::patterns::patterns;
use office::remains::{Remains, LEAST};
use office::{cut_list, labels, totals};
use random::Random;

/// Lines of a text, each as its numbers.
type Lines = &'static [&'static [usize]];

/// The lines of job A's text with its plan and prices.
fn job_a() -> Vec<Vec<usize>> {
    let text = include_str!("../../examples/a.txt");
    text.lines().filter_map(numbers).collect()
}

/// The same with each item on a board of its own: the plan's lines show plate type 0 alone, so that a job
/// that differs in its items may still be the plan's, with other prices.
fn job_a_on_boards() -> Vec<Vec<usize>> {
    let mut lines = job_a();
    let first = lines.iter().position(|line| line[0] == 3).unwrap();
    lines.retain(|line| line[0] != 3);
    let plan = [[3, 0, 1, 2, 9, 7, 1, 0], [3, 0, 2, 3, 9, 7, 1, 0]];
    lines.splice(first..first, plan.map(|line| line.to_vec()));
    lines
}

/// Layouts of a job in three stages with this blade.
fn fold(blade: usize) -> Vec<Vec<usize>> {
    let [x, y] = [3 + blade, 2 + blade];
    vec![
        vec![1, 3, 0, 1, 2, blade],
        vec![10, 0, 5 + blade, 5, 1],
        vec![2, 1, 3, 5, 2, 0],
        vec![2, 2, 2, 2, 2, 0],
        vec![7, 1, 0, 1, 1, 1, 1, 0, 0, 0],
        vec![7, 1, 0, 1, 2, 1, 2, x, 0, 0],
        vec![7, 1, 0, 1, 2, 2, 2, x, y, 0],
        vec![7, 2, 0, 1, 1, 1, 1, 0, 0, 0],
    ]
}

/// Job A's items on two sizes, boards of both, with prices.
const SAW_SIZES: Lines = &[
    &[1, 2, 0, 2, 2, 0],
    &[10, 0, 9, 7, 3],
    &[10, 1, 9, 3, 1],
    &[2, 1, 5, 4, 2, 0],
    &[2, 2, 3, 3, 3, 0],
    &[3, 0, 1, 2, 9, 7, 1, 0],
    &[3, 1, 2, 1, 9, 3, 1, 0],
    &[3, 3, 2, 2, 4, 4, 2, 0],
    &[4, 1, 2, 5],
    &[5, 1, 3],
    &[5, 2, 0],
    &[6, 2, 0],
    &[6, 3, 0],
    &[6, 4, 3],
    &[6, 5, 0],
    &[6, 6, 0],
];

/// Layouts on boards of two sizes, the second size first.
const FOLD_SIZES: Lines = &[
    &[1, 3, 0, 2, 1, 0],
    &[10, 0, 9, 7, 5],
    &[10, 1, 3, 6, 1],
    &[2, 1, 3, 3, 4, 0],
    &[7, 1, 1, 1, 1, 1, 1, 0, 0, 0],
    &[7, 1, 1, 2, 1, 1, 1, 0, 3, 0],
    &[7, 2, 0, 1, 1, 1, 1, 0, 0, 0],
    &[7, 2, 0, 1, 2, 1, 1, 3, 0, 0],
];

/// Numbers that are often wrong somewhere.
const NUMBERS: [usize; 15] = [
    0,
    1,
    2,
    3,
    4,
    5,
    6,
    7,
    8,
    9,
    21,
    40,
    4_000,
    10_000,
    999_999_999,
];

/// Lines that can be changed.
fn of(lines: Lines) -> Vec<Vec<usize>> {
    lines.iter().map(|line| line.to_vec()).collect()
}

/// The bytes of lines.
fn text_of(lines: &[Vec<usize>]) -> Vec<u8> {
    let lines = lines.iter().map(|numbers| line(numbers));
    lines.collect::<String>().into_bytes()
}

/// Changes a number, leaves out a line, sets one twice, or swaps two.
fn lines_damaged(random: &mut Random, lines: &mut Vec<Vec<usize>>) {
    let place = random.below(lines.len());
    match random.below(8) {
        0 => drop(lines.remove(place)),
        1 => lines.insert(place, lines[place].clone()),
        2 => {
            let other = random.below(lines.len());
            lines.swap(place, other);
        }
        3 => lines[place].push(NUMBERS[random.below(NUMBERS.len())]),
        _ => {
            let number = random.below(lines[place].len());
            lines[place][number] = NUMBERS[random.below(NUMBERS.len())];
        }
    }
}

/// Now and then changes a byte, or cuts the text short.
fn bytes_damaged(random: &mut Random, text: &mut Vec<u8>) {
    let place = random.below(text.len());
    match random.below(12) {
        0 => text[place] = b" 0\n\r\tx-\xff"[random.below(8)],
        1 => text.truncate(place),
        2 => text.push(b'\n'),
        _ => {}
    }
}

/// Damages a text in many ways and explains each refusal; gives how often each number was refused.
fn explained(base: &[Vec<usize>], answer: fn(&[u8]) -> Vec<u8>, seed: u64) -> [usize; 21] {
    let mut random = Random(seed);
    let mut refused = [0; 21];
    for _ in 0..4_000 {
        let mut lines = base.to_vec();
        for _ in 0..=random.below(2) {
            lines_damaged(&mut random, &mut lines);
        }
        let mut text = text_of(&lines);
        bytes_damaged(&mut random, &mut text);
        let answer = String::from_utf8(answer(&text)).unwrap();
        if let Ok([number, place]) = refusal(&answer) {
            refused[number] += 1;
            if let Err(fault) = explain(&text, number, place) {
                panic!("{fault}\n{}", String::from_utf8_lossy(&text));
            }
        }
    }
    refused
}

#[test]
fn every_refusal_of_a_saw_text_is_explained() {
    let mut refused = [0; 21];
    for (base, seed) in [(job_a(), 5), (job_a_on_boards(), 8), (of(SAW_SIZES), 9)] {
        assert!(!reference::saw_text(&text_of(&base)).starts_with(b"        9"));
        let more = explained(&base, reference::saw_text, seed);
        refused = std::array::from_fn(|number| refused[number] + more[number]);
    }
    for number in [1, 2, 3, 6, 8, 9, 10, 11, 12, 13, 14, 19, 20] {
        assert!(refused[number] > 0, "{number} was never met: {refused:?}");
    }
}

#[test]
fn every_refusal_of_a_fold_text_is_explained() {
    let mut refused = [0; 21];
    for (base, seed) in [(fold(0), 6), (fold(1), 7), (of(FOLD_SIZES), 10)] {
        assert!(!reference::fold_text(&text_of(&base)).starts_with(b"        9"));
        let more = explained(&base, reference::fold_text, seed);
        refused = std::array::from_fn(|number| refused[number] + more[number]);
    }
    for number in [1, 2, 3, 4, 11, 15, 16, 17, 18, 19] {
        assert!(refused[number] > 0, "{number} was never met: {refused:?}");
    }
}

/// Whatever is asked of a damaged text, at whatever place, there is an answer.
#[test]
fn every_question_about_a_damaged_text_is_answered() {
    let mut random = Random(11);
    let bases = [job_a(), of(SAW_SIZES), fold(1), of(FOLD_SIZES)];
    let mut told = 0;
    for round in 0..400 {
        let mut lines = bases[round % bases.len()].clone();
        for _ in 0..=random.below(4) {
            lines_damaged(&mut random, &mut lines);
        }
        let mut text = text_of(&lines);
        bytes_damaged(&mut random, &mut text);
        for number in 0..=21 {
            for place in (0..lines.len() + 3).chain([100_000, 999_999_999, usize::MAX]) {
                told += usize::from(explain(&text, number, place).is_ok());
            }
        }
    }
    assert!(told > 400, "{told}");
}

/// The saw's answer to job A.
const OUTPUT: Lines = &[
    &[7, 1, 0, 1, 1, 1, 1, 0, 0, 0],
    &[7, 1, 0, 1, 2, 1, 2, 5, 0, 0],
    &[7, 1, 0, 2, 1, 1, 2, 0, 4, 0],
    &[7, 1, 0, 2, 2, 1, 2, 3, 4, 0],
    &[7, 2, 0, 1, 1, 1, 1, 0, 0, 0],
    &[8, 2, 2, 1, 1],
];

/// A damaged answer is told or drawn: one that still is an answer of the saw to some plan.
#[test]
fn a_damaged_answer_is_told_or_drawn() {
    let job = Job::read("1 2 0 1 2 0\n10 0 9 7 1\n2 1 5 4 2 0\n2 2 3 3 3 0\n").unwrap();
    let mut random = Random(12);
    let [mut told, mut drawn] = [0; 2];
    for _ in 0..4_000 {
        let mut lines = of(OUTPUT);
        for _ in 0..=random.below(2) {
            lines_damaged(&mut random, &mut lines);
        }
        let mut text = text_of(&lines);
        bytes_damaged(&mut random, &mut text);
        let text = String::from_utf8_lossy(&text).replace("999999999", " 18446744073709551615");
        let read = Answer::read(&text, &job)
            .and_then(|answer| Ok((Remains::of(&job, &answer, LEAST)?, answer)));
        let Ok((remains, answer)) = read else {
            told += 1;
            continue;
        };
        let patterns = patterns(&answer, &remains);
        assert_eq!(page(&job, &answer, &remains).len(), patterns.len() + 1);
        assert!(totals::text(&job, &answer, &remains, patterns.len()).contains("board"));
        assert!(cut_list::text(&job, &patterns).contains("Pattern 1 of"));
        assert!(cut_list::csv(&job, &patterns).contains("strip cut"));
        assert!(labels::csv(&job, &answer).lines().count() > 1);
        drawn += 1;
    }
    assert!(told > 2_000 && drawn > 100, "{told}, {drawn}");
}
