//! Refusals of layouts explained, with the second implementation as the fold program that gives them.

use super::explain;
use super::tests::{check, text};
use crate::columns::line;
use crate::job::tests::{job, job_a, job_with_blade};
use crate::job::Job;

/// A fold text of a job and these lines of kind 7.
pub fn fold(job: Job, lines: &[[usize; 9]]) -> String {
    lines.iter().fold(job.text(), |text, numbers| {
        text + &line(&[&[7], &numbers[..]].concat())
    })
}

/// An item of type 1 in the corner of board 1.
const FIRST: [usize; 9] = [1, 0, 1, 1, 1, 1, 0, 0, 0];

/// A fold text with the first item and beside it, at x, a stack of two items of these types, the upper one
/// at y.
fn with_stack(job: Job, [lower, upper]: [usize; 2], [x, y]: [usize; 2]) -> String {
    let stack = [[1, lower, x, 0], [2, upper, x, y]];
    let [lower, upper] = stack.map(|[place, item, x, y]| [1, 0, 1, 2, place, item, x, y, 0]);
    fold(job, &[FIRST, lower, upper])
}

#[test]
fn stage_rules() {
    let two = job("2E", [9, 7], &[[5, 4, 2], [3, 3, 3]]);
    let three = job("3N", [5, 5], &[[3, 5, 1], [2, 2, 2]]);
    let exact = job("3E", [5, 5], &[[3, 5, 1], [2, 2, 2], [1, 2, 1]]);
    let single = fold(job_a(), &[FIRST, [1, 0, 1, 1, 2, 2, 0, 4, 0]]);
    let heights = fold(two, &[FIRST, [1, 0, 1, 2, 1, 2, 5, 0, 0]]);
    let full = fold(
        three,
        &[[1, 0, 1, 1, 1, 2, 0, 0, 0], [1, 0, 1, 1, 2, 2, 0, 2, 0]],
    );
    let widths = with_stack(exact, [2, 3], [3, 2]);
    check(&[
        (
            single,
            "Refusal 16, strip from line 5: in two stages each stack is one item",
        ),
        (heights, "equally high"),
        (
            full,
            "no stack of the strip is a single item of the strip's height, 4",
        ),
        (widths, "equally wide"),
    ]);
}

#[test]
fn layouts() {
    let turn = fold(job_a(), &[[1, 0, 1, 2, 1, 1, 0, 0, 0]]);
    let across = fold(job_a(), &[FIRST, [1, 0, 1, 2, 1, 1, 5, 0, 0]]);
    let upwards = fold(job_a(), &[FIRST, [1, 0, 2, 1, 1, 1, 0, 4, 0]]);
    let position = fold(job_a(), &[FIRST, [1, 0, 1, 2, 1, 2, 5, 1, 0]]);
    let many: Vec<[usize; 9]> = (1..=4001)
        .map(|board| [board, 0, 1, 1, 1, 1, 0, 0, 0])
        .collect();
    check(&[
        (
            turn,
            "Refusal 15, line 5: board, strip, stack, place are 1 1 2 1",
        ),
        (
            across,
            "Refusal 17, strip from line 5: its stacks are 10 wide",
        ),
        (
            upwards,
            "Refusal 17, strip from line 6: it reaches up to 8, the board to 7",
        ),
        (
            position,
            "Refusal 18, line 6: x and y are 5 and 1, the item's position is 5 and 0",
        ),
        (
            fold(job_a(), &[FIRST]),
            "Refusal 11, item type 1: it lies on the boards 1 times",
        ),
        (fold(job_a(), &many), "Refusal 2, line 4005: board is 4,001"),
    ]);
}

#[test]
fn layouts_with_a_blade() {
    let blade = |board| job_with_blade("2N", board, 2, &[[5, 4, 2], [3, 3, 3]]);
    let beside = [1, 0, 1, 2, 1, 1, 7, 0, 0];
    let across = fold(blade([11, 7]), &[FIRST, beside]);
    let upwards = fold(blade([12, 9]), &[FIRST, [1, 0, 2, 1, 1, 1, 0, 6, 0]]);
    let near = fold(blade([12, 10]), &[FIRST, [1, 0, 1, 2, 1, 1, 6, 0, 0]]);
    let three = job_with_blade("3N", [20, 20], 2, &[[4, 8, 1], [4, 4, 2]]);
    let stack = with_stack(three, [2, 2], [6, 6]);
    let post = job_with_blade("3N", [20, 20], 2, &[[4, 12, 1], [4, 4, 2]]);
    let high = with_stack(post, [2, 2], [6, 5]);
    check(&[
        (
            across,
            "its stacks are 12 wide together with a blade of 2 between them, the board 11",
        ),
        (
            upwards,
            "Refusal 17, strip from line 6: it reaches up to 10, the board to 9",
        ),
        (
            near,
            "x and y are 6 and 0, the item's position is 7 and 0",
        ),
        (
            stack,
            "no stack of the strip is a single item of the strip's height, 10",
        ),
        (
            high,
            "the item's position is 6 and 6. x is the widths of the stacks before it; y the strips \
             below plus the items below it in its stack, and 2 for the blade after each of them",
        ),
    ]);
}

/// Lines that name a type, a size or a strip outside their limits are refused with 2; asked for another
/// refusal, the text does not show it.
#[test]
fn layouts_outside_their_limits() {
    let first = [7, 1, 0, 1, 1, 1, 1, 0, 0, 0];
    let other = |place: usize, number: usize| {
        let mut line = first;
        line[place] = number;
        line
    };
    for (place, name) in [
        (1, "board"),
        (2, "size"),
        (3, "strip"),
        (4, "stack"),
        (5, "place"),
        (6, "type"),
    ] {
        for number in [0, 3, 999_999_999] {
            let least = usize::from(name != "size");
            let most = match name {
                "type" => 2,
                "size" => 0,
                _ => 4_000,
            };
            let text = text(&[&first, &other(place, number)]);
            let told = |refusal| explain(text.as_bytes(), refusal, 6);
            if !(least..=most).contains(&number) {
                assert!(told(2).unwrap().contains(&format!("{name} is ")), "{text}");
                for refusal in 15..=18 {
                    let fault = told(refusal).unwrap_err();
                    assert!(fault.contains("does not show refusal"), "{fault}");
                }
            }
        }
    }
}
