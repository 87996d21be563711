//! Boards of every mode: each item and each offcut is given once, and the cuts are those of the
//! layout.

use super::*;
use crate::job::tests::{job_with_blade, job_with_leave};
use crate::remains::tests::answered;
use crate::remains::LEAST;

/// The steps of the only board of an output, and its parts.
fn sawn(job: &Job, output: &str) -> Vec<Step> {
    let (answer, remains) = answered(job, output, LEAST);
    steps(job, &answer.boards[0], &remains.boards[0])
}

/// What is done, in which strip, stack and place, where the blade goes and how far, and the sides of
/// what it gives.
type Short = (Kind, [usize; 3], Option<(char, usize)>, usize, [usize; 2]);

/// Holds steps, without the names of what they give, against the expected ones.
fn are(steps: &[Step], expected: &[Short]) {
    let short = |step: &Step| (step.kind, step.place, step.at, step.length, step.sides);
    assert_eq!(steps.iter().map(short).collect::<Vec<Short>>(), expected);
}

#[test]
fn a_stack_of_three_stages_is_cut_and_trimmed() {
    let job = job_with_blade("3N", [20, 12], 1, &[[6, 10, 1], [7, 4, 1], [5, 3, 1]]);
    let output = "7 1 0 1 1 1 1 0 0 0\n7 1 0 1 2 1 2 7 0 0\n7 1 0 1 2 2 3 7 5 0\n8 1 0 1 0\n";
    let steps = sawn(&job, output);
    let expected = [
        (Kind::Strip, [1, 0, 0], Some(('y', 10)), 20, [20, 10]),
        (Kind::Stack, [1, 1, 0], Some(('x', 6)), 10, [6, 10]),
        (Kind::Stack, [1, 2, 0], Some(('x', 14)), 10, [7, 10]),
        (Kind::Left, [1, 0, 0], None, 0, [5, 10]),
        (Kind::Item, [1, 2, 1], Some(('y', 4)), 7, [7, 4]),
        (Kind::Item, [1, 2, 2], Some(('y', 8)), 7, [7, 3]),
        (Kind::Trim, [1, 2, 2], Some(('x', 12)), 3, [5, 3]),
    ];
    are(&steps, &expected);
    let gives: Vec<Gives> = steps.iter().map(|step| step.gives).collect();
    let turned = false;
    assert_eq!(gives[1], Gives::Item { item: 1, turned });
    assert_eq!(gives[2], Gives::Stack);
    assert_eq!(gives[3], Gives::Offcut { usable: true });
    assert_eq!(gives[5], Gives::Untrimmed { item: 3, turned });
}

#[test]
fn what_fills_the_board_needs_no_cut() {
    let job = job_with_leave("2N", [4, 5], &[[5, 4, 1, 1]]);
    let steps = sawn(&job, "7 1 0 1 1 1 1 0 0 1\n8 1 0 1 0\n");
    let expected = [
        (Kind::Left, [1, 0, 0], None, 0, [4, 5]),
        (Kind::Left, [1, 1, 0], None, 0, [4, 5]),
    ];
    are(&steps, &expected);
    let turned = true;
    assert_eq!(steps[1].gives, Gives::Item { item: 1, turned });
}
