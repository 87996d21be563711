//! Refusals of texts over several board sizes explained.

use super::layouts_tests::fold;
use super::tests::check;
use crate::columns::line;
use crate::job::tests::two_sizes;

/// The job on two sizes and these lines.
fn two(lines: &[&[usize]]) -> String {
    let add = |text: String, numbers: &&[usize]| text + &line(numbers);
    lines.iter().fold(two_sizes().text(), add)
}

#[test]
fn layouts_on_several_sizes() {
    let first = [1, 1, 1, 1, 1, 2, 0, 0, 0];
    let second = [2, 0, 1, 1, 1, 1, 0, 0, 0];
    check(&[
        (
            fold(two_sizes(), &[first, [1, 0, 1, 2, 1, 2, 3, 0, 0]]),
            "Refusal 15, line 7: it names size 0 (9 by 7), but board 1 has size 1 (9 by 3), from its first line, 6. Write size 1 there",
        ),
        // Back on board 1, with another size too: the turn is at fault, and with size 1 it would still be.
        (
            fold(two_sizes(), &[first, second, [1, 0, 1, 2, 1, 2, 3, 0, 0]]),
            "Refusal 15, line 8: board, strip, stack, place are 1 1 2 1, not the next in turn. Number them from 1 without gaps: there 2 1 1 2, or 2 1 2 1, or 2 2 1 1, or 3 1 1 1 can stand.",
        ),
        // Out of turn on its own board, and of another size: both are told.
        (
            fold(two_sizes(), &[first, [1, 0, 1, 3, 1, 2, 3, 0, 0]]),
            "not the next in turn. Number them from 1 without gaps: there 1 1 1 2, or 1 1 2 1, or 1 2 1 1, or 2 1 1 1 can stand; board 1 has size 1.",
        ),
        (
            fold(two_sizes(), &[first, [2, 2, 1, 1, 1, 1, 0, 0, 0]]),
            "Refusal 2, line 7: size is 2, outside its limits. Write size from 0 to 1.",
        ),
        (
            fold(two_sizes(), &[[1, 1, 1, 1, 1, 1, 0, 0, 0]]),
            "Refusal 17, strip from line 6: it reaches up to 4, the board to 3. Move items from strip 1 of board 1, which is of size 1,",
        ),
    ]);
}

#[test]
fn plans_on_several_sizes() {
    check(&[
        (
            two(&[&[3, 0, 1, 2, 9, 7, 1, 0], &[3, 2, 2, 3, 9, 3, 1, 0]]),
            "Refusal 12, plate type 2: it is 9 by 3, stage 1, is cut 3 times and arises 2 times",
        ),
        (
            two(&[&[3, 0, 1, 2, 9, 3, 1, 0]]),
            "Refusal 20, line 6: in the model plate type 0 is 9 by 7, stage 1; the line shows height 3 for 7. Number plate types as \"office list\" does: what the line shows is plate type 1 (a board) or 2 there.",
        ),
        (
            two(&[&[3, 1, 2, 1, 9, 7, 1, 0]]),
            "what the line shows is plate type 0 (a board) there.",
        ),
        (
            two(&[&[3, 7, 1, 1, 1, 1, 1, 0]]),
            "there is no plate type 7; this job's run from 0 to 6",
        ),
    ]);
}

#[test]
fn prices_on_several_sizes() {
    let plan: [&[usize]; 3] = [
        &[3, 0, 1, 2, 9, 7, 1, 0],
        &[3, 1, 2, 1, 9, 3, 1, 0],
        &[3, 3, 2, 2, 4, 4, 2, 0],
    ];
    let head: &[usize] = &[4, 1, 2, 5];
    let low = [
        [5, 1, 4],
        [5, 2, 0],
        [6, 2, 0],
        [6, 3, 0],
        [6, 4, 4],
        [6, 5, 0],
        [6, 6, 0],
    ];
    let low: Vec<&[usize]> = low.iter().map(|numbers| &numbers[..]).collect();
    check(&[
        (
            two(&[&plan[..], &[head, &[5, 1, 1], &[5, 2, 0], &[6, 1, 0]]].concat()),
            "Refusal 1, line 12: its running number must be 2, the next in order. Write there \"6, 2, price\".",
        ),
        (
            two(&[&plan[..], &[head], &low].concat()),
            "Refusal 14, cut 1: item type 1 and plate type 2 and plate type 3 are worth 4, above 3, the D of line 4 times the cost of size 0, 3",
        ),
    ]);
}

#[test]
fn a_size_that_is_missing() {
    let head = line(&[1, 2, 0, 2, 1, 0]) + &line(&[10, 0, 9, 7, 1]);
    check(&[
        (
            head.clone(),
            "line 3: the text ends before it. Write there \"10, 1, W, H, cost\".",
        ),
        (
            head + &line(&[2, 1, 5, 4, 2, 0]),
            "line 3: kind 2 does not belong there. Write there \"10, 1",
        ),
    ]);
}
