//! Each refusal explained, with the second implementation as the saw that gives it.

use super::explain;
use crate::answer::refusal;
use crate::columns::line;
use crate::job::tests::{job, job_a, job_with_leave};

/// Job A and these lines.
pub fn text(lines: &[&[usize]]) -> String {
    lines
        .iter()
        .fold(job_a().text(), |text, numbers| text + &line(numbers))
}

/// What is said of a text, refused by the program that it is for.
fn told(text: &str) -> String {
    let fold = text.lines().any(|line| line.starts_with("        7"));
    let answer = if fold {
        reference::fold_text(text.as_bytes())
    } else {
        reference::saw_text(text.as_bytes())
    };
    let [number, place] = refusal(std::str::from_utf8(&answer).unwrap()).unwrap();
    let told =
        explain(text.as_bytes(), number, place).unwrap_or_else(|fault| panic!("{fault}:\n{text}"));
    assert!(told.starts_with(&format!("Refusal {number}, ")), "{told}");
    told
}

/// Checks what is said of texts.
pub fn check(texts: &[(String, &str)]) {
    for (text, expected) in texts {
        let told = told(text);
        assert!(told.contains(expected), "{told}\nof\n{text}");
    }
}

#[test]
fn lines_not_of_the_form() {
    let whole = text(&[&[3, 0, 1, 2, 9, 7, 1, 0]]);
    let line_2 = &line(&[2, 1, 5, 4, 2, 0]);
    check(&[
        (String::new(), "Refusal 1, line 1: the text ends before it. Write there \"1, stages, exact, t, n, b\"."),
        (line(&[1, 2, 0, 1, 2, 0]), "line 2: the text ends before it. Write there \"10, 0, W, H, cost\"."),
        (line(&[1, 2, 0, 1, 2, 0]) + &line(&[10, 0, 9, 7, 1]), "line 3: the text ends before it. Write there \"2, 1, width"),
        (whole.replacen("       10        0", "       10        1", 1), "line 2: its running number must be 0, the next in order"),
        (line(&[1, 2, 0, 9, 7, 2, 0]), "line 1: it has 63 columns; 6 numbers take 54. Write there \"1, stages, exact, t, n, b\"."),
        (whole.replace('\n', "\r\n"), "line 1: it ends with byte 13"),
        (whole.replacen("        3", "\t3", 1), "a tab stands in column 1"),
        (whole.replacen("        5", "      -5", 1), "\"-\" stands in column"),
        (whole.replacen(line_2, &line(&[2, 2, 5, 4, 2, 0]), 1), "line 3: its running number must be 1"),
        (whole.replacen(line_2, &line(&[2, 1, 5, 4, 2]), 1), "line 3: it has 45 columns; 6 numbers take 54"),
        (whole.replacen("        9", "       09", 1), "columns 19 to 27 hold \"       09\""),
        (whole.trim_end().to_string(), "line 5: it does not end with byte 10"),
        (text(&[&[8, 1, 0, 1, 0]]), "kind 8 does not belong there. Write there \"3, plate, item, count, width, height, stage, turn\" or \"4, D, n, m\""),
        (text(&[&[3, 0, 1, 2, 0]]), "line 5: it has 45 columns; 8 numbers take 72. Write there \"3, plate, item, count, width, height, stage, turn\" or"),
        (text(&[&[4, 1, 1, 0], &[6, 1, 1]]), "line 6: kind 6 does not belong there. Write there \"5, 1, price\""),
        (text(&[&[4, 1, 1, 0], &[5, 1, 1], &[5, 2, 1]]), "line 7: kind 5 does not belong there. Write there nothing"),
        (text(&[&[4, 1, 2, 5], &[5, 1, 1]]), "line 7: the text ends before it"),
        (text(&[&[7, 1, 0, 1, 1, 1, 1, 0, 0, 0], &[3, 0, 1, 1, 9, 7, 1, 0]]), "line 6: kind 3 does not belong there"),
        (whole + "\n", "line 6: its first nine columns hold no kind"),
    ]);
}

#[test]
fn a_text_sent_to_the_other_program() {
    let plan = text(&[&[3, 0, 1, 2, 9, 7, 1, 0]]);
    let layouts = text(&[&[7, 1, 0, 1, 1, 1, 1, 0, 0, 0]]);
    for (text, answer) in [
        (&plan, reference::fold_text(plan.as_bytes())),
        (&layouts, reference::saw_text(layouts.as_bytes())),
    ] {
        assert_eq!(answer, line(&[9, 1, 5]).as_bytes());
        let told = explain(text.as_bytes(), 1, 5).unwrap();
        assert!(
            told.contains("the program that refused it does not read"),
            "{told}"
        );
    }
}

#[test]
fn values_of_a_job_outside_their_limits() {
    check(&[
        (
            line(&[1, 4, 0, 1, 2, 0]),
            "Refusal 2, line 1: stages is 4, outside its limits. Write stages from 2 to 3.",
        ),
        (
            line(&[1, 2, 0, 7, 2, 0]),
            "line 1: t is 7, outside its limits. Write t from 1 to 6.",
        ),
        (
            line(&[1, 2, 0, 1, 2, 0]) + &line(&[10, 0, 9, 10_001, 1]),
            "line 2: H is 10,001",
        ),
        (
            line(&[1, 2, 0, 1, 2, 0]) + &line(&[10, 0, 9, 7, 1000]),
            "cost is 1,000, outside its limits. Write cost from 1 to 999.",
        ),
        (
            line(&[1, 2, 0, 1, 2, 21]),
            "Refusal 2, line 1: b is 21, outside its limits. Write b from 0 to 20.",
        ),
    ]);
}

#[test]
fn values_outside_their_limits() {
    check(&[
        (
            text(&[&[3, 0, 3, 1, 9, 7, 1, 0]]),
            "line 5: item is 3, outside its limits. Write item from 1 to 2",
        ),
        (text(&[&[3, 0, 1, 4001, 9, 7, 1, 0]]), "count is 4,001"),
        // The plate's width, height and stage have no limits, and are no fault of limits beside one.
        (
            text(&[&[3, 0, 1, 0, 0, 10_001, 9, 0]]),
            "count is 0, outside",
        ),
        (
            text(&[&[3, 0, 1, 1, 999_999_999, 0, 4, 2]]),
            "turn is 2, outside",
        ),
        (text(&[&[4, 10_000, 2, 5]]), "D is 10,000"),
        (text(&[&[7, 1, 0, 1, 1, 1, 3, 0, 0, 0]]), "type is 3"),
    ]);
}

#[test]
fn jobs_and_models() {
    let many: Vec<[usize; 3]> = (0..40).map(|i| [101 + 7 * i, 103 + 11 * i, 1]).collect();
    check(&[
        (
            job("2N", [9, 7], &[[7, 9, 1]]).text(),
            "Refusal 3, item type 1: the item is 7 by 9 and fits no size (9 by 7); it has no leave to be turned. Correct line 3",
        ),
        (
            job_with_leave("2N", [9, 7], &[[5, 8, 1, 1], [8, 10, 1, 1]]).text(),
            "Refusal 3, item type 2: the item is 8 by 10 and fits no size (9 by 7); it does not fit turned",
        ),
        (
            job("2N", [9, 7], &[[5, 4, 4000], [3, 3, 1]]).text(),
            "Refusal 4, the whole job: the demands add up to 4,001",
        ),
        (
            job("3N", [10_000, 10_000], &[[71, 83, 1], [97, 61, 1]]).text(),
            "Refusal 6, the whole job",
        ),
        (
            job("3N", [10_000, 10_000], &many).text(),
            "Refusal 7, the whole job: the job has more than 8,192 cuts",
        ),
    ]);
    assert!(explain(b"", 5, 3).unwrap().contains("counts"));
    assert!(explain(b"", 5, 5).unwrap().contains("offcuts"));
    let lengths = explain(b"", 2, 0).unwrap();
    assert!(
        lengths.starts_with("Refusal 2, place 0: one of the two lengths"),
        "{lengths}"
    );
    for of_job in ["stages", "exact", "sizes", "item types", "blade", "cost"] {
        assert!(lengths.contains(of_job), "{of_job}: {lengths}");
    }
}

#[test]
fn plans() {
    let exact = job("2E", [9, 7], &[[5, 4, 2], [3, 3, 3], [4, 4, 1]]).text();
    check(&[
        (text(&[&[3, 1, 1, 1, 9, 3, 1, 0]]), "item type 1 (5 by 4) cannot be cut from plate type 1 (9 by 3, stage 1): it does not fit"),
        (text(&[&[3, 9, 1, 1, 1, 1, 1, 0]]), "there is no plate type 9; this job's run from 0 to 5"),
        (exact + &line(&[3, 2, 2, 1, 4, 4, 2, 0]), "Refusal 8, line 6: item type 2 (3 by 3) cannot be cut from plate type 2 (4 by 4, stage 2): it is not just as high"),
        (text(&[&[3, 0, 2, 1, 9, 7, 1, 0], &[3, 0, 1, 1, 9, 7, 1, 0]]), "Refusal 9, line 6: it names cut 1 (plate type 0, item type 1, turn 0)"),
        (text(&[&[3, 0, 1, 3000, 9, 7, 1, 0], &[3, 0, 2, 1001, 9, 7, 1, 0]]), "Refusal 10, the whole plan: there are 4,001 cuts"),
        (text(&[]), "Refusal 11, item type 1: it is cut 0 times; 2 are demanded on line 3"),
        (text(&[&[3, 0, 1, 2, 9, 7, 1, 0], &[3, 1, 2, 1, 9, 3, 1, 0], &[3, 2, 2, 3, 4, 4, 2, 0], &[3, 4, 2, 1, 6, 3, 2, 0]]), "Refusal 12, plate type 2: it is 4 by 4, stage 2, is cut 3 times and arises 2 times"),
    ]);
}

#[test]
fn plates_shown() {
    let whole = [3, 0, 1, 2, 9, 7, 1, 0];
    check(&[
        (text(&[&[3, 0, 1, 2, 8, 7, 1, 0]]), "Refusal 20, line 5: in the model plate type 0 is 9 by 7, stage 1; the line shows width 8 for 9. Take width, height and stage from the listing"),
        (text(&[&whole, &[3, 1, 2, 1, 9, 4, 1, 0]]), "Refusal 20, line 6: in the model plate type 1 is 9 by 3, stage 1; the line shows height 4 for 3. Number plate types as \"office list\" does: what the line shows is plate type 3 there."),
        (text(&[&whole, &[3, 2, 2, 1, 4, 4, 3, 0]]), "the line shows stage 3 for 2. Take"),
        (text(&[&whole, &[3, 1, 2, 1, 4, 4, 2, 0]]), "the line shows width 4 for 9, height 4 for 3, stage 2 for 1. Number plate types as \"office list\" does: what the line shows is plate type 2 there."),
        (text(&[&[3, 0, 1, 2, 65_545, 7, 1, 0]]), "the line shows width 65,545 for 9. Take"),
        (text(&[&[3, 0, 1, 2, 9, 7, 999_999_999, 0]]), "the line shows stage 999,999,999 for 1"),
        (text(&[&[3, 0, 1, 1, 9, 7, 1, 0], &[3, 0, 1, 1, 8, 7, 1, 0]]), "Refusal 20, line 6: in the model"),
        (text(&[&[3, 1, 1, 1, 8, 8, 8, 0]]), "Refusal 8, line 5: item type 1"),
    ]);
    // A line that shows its plate is none of refusal 20, nor one that names no cut.
    for line in [&whole, &[3, 1, 1, 1, 8, 8, 8, 0]] {
        assert!(explain(text(&[line]).as_bytes(), 20, 5).is_err());
    }
}

#[test]
fn turns() {
    let turning = job_with_leave("2N", [9, 7], &[[5, 4, 2, 1], [3, 3, 3, 1]]).text();
    let flat = job_with_leave("2N", [5, 3], &[[3, 5, 1, 1]]).text();
    check(&[
        (text(&[&[3, 0, 1, 2, 9, 7, 1, 1]]), "Refusal 19, line 5: the turn is 1, but item type 1 (5 by 4) has no leave to be turned on line 3"),
        (text(&[&[7, 1, 0, 1, 1, 1, 1, 0, 0, 1]]), "Refusal 19, line 5: the turn is 1, but item type 1 (5 by 4) has no leave"),
        (turning.clone() + &line(&[3, 0, 2, 1, 9, 7, 1, 1]), "Refusal 19, line 5: the turn is 1, but item type 2 (3 by 3) is square"),
        (turning.clone() + &line(&[3, 0, 2, 1, 9, 7, 1, 2]), "Refusal 2, line 5: turn is 2"),
        (turning + &line(&[3, 1, 1, 1, 9, 3, 1, 1]), "item type 1 turned (4 by 5) cannot be cut from plate type 1 (9 by 3, stage 1): it does not fit"),
        (flat.clone() + &line(&[3, 0, 1, 1, 5, 3, 1, 0]), "Refusal 8, line 4: item type 1 (3 by 5) cannot be cut from plate type 0"),
        (flat + &line(&[7, 1, 0, 1, 1, 1, 1, 0, 0, 0]), "Refusal 17, strip from line 4: it reaches up to 5, the board to 3"),
    ]);
}

#[test]
fn prices() {
    let plan: [&[usize]; 4] = [
        &[3, 0, 1, 2, 9, 7, 1, 0],
        &[3, 1, 2, 1, 9, 3, 1, 0],
        &[3, 2, 2, 1, 4, 4, 2, 0],
        &[3, 4, 2, 1, 6, 3, 2, 0],
    ];
    let few: [&[usize]; 2] = [&[4, 1, 1, 0], &[5, 1, 1]];
    let low: [&[usize]; 8] = [
        &[4, 1, 2, 5],
        &[5, 1, 1],
        &[5, 2, 0],
        &[6, 1, 0],
        &[6, 2, 0],
        &[6, 3, 0],
        &[6, 4, 0],
        &[6, 5, 0],
    ];
    check(&[
        (text(&[&plan[..], &few].concat()), "Refusal 13, the whole price list: line 9 gives n 1 and m 0; this job has 2 item types and 5"),
        (text(&[&plan[..], &low].concat()), "Refusal 14, cut 5: item type 1 and plate type 2 are worth 1, above 0, the price of plate type 3"),
    ]);
}

#[test]
fn other_texts_and_numbers_are_told() {
    let good = text(&[
        &[3, 0, 1, 2, 9, 7, 1, 0],
        &[3, 1, 2, 1, 9, 3, 1, 0],
        &[3, 2, 2, 1, 4, 4, 2, 0],
        &[3, 4, 2, 1, 6, 3, 2, 0],
    ]);
    for number in 1..=20 {
        let said = explain(good.as_bytes(), number, 2);
        assert!(
            number == 5 || said.unwrap_err().contains("is it the text that was sent?"),
            "{number}"
        );
    }
    assert!(explain(b"", 21, 1).unwrap_err().contains("no refusal 21"));
}
