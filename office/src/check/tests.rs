//! Answers whole, damaged and of other texts.

use super::*;
use crate::columns::line;
use crate::job::tests::job_a;

/// Job A's text with its plan; the count of the third line is given.
fn text(count: usize) -> Vec<u8> {
    let plan = [
        [3, 0, 1, 2, 9, 7, 1, 0],
        [3, 1, 2, 1, 9, 3, 1, 0],
        [3, 2, 2, count, 4, 4, 2, 0],
        [3, 4, 2, 1, 6, 3, 2, 0],
    ];
    let lines = plan.iter().map(|numbers| line(numbers));
    (job_a().text() + &lines.collect::<String>()).into_bytes()
}

/// The fold text of the saw's answer to a text.
fn fold_text(text: &[u8]) -> Vec<u8> {
    let answer = reference::saw_text(text);
    let pieces = answer.split_inclusive(|&byte| byte == b'\n');
    let pieces = pieces.filter(|line| line.starts_with(b"        7"));
    let mut all = job_a().text().into_bytes();
    all.extend(pieces.flatten());
    all
}

#[test]
fn whole_answers_are_accepted() {
    let sent = text(1);
    let answer = reference::saw_text(&sent);
    let told = "accepted: 2 board(s), 5 piece(s), cost 2; nothing is known of cheaper plans";
    for verdict in [check(None, &answer), check(Some(&sent), &answer)] {
        assert_eq!(verdict, Verdict::Accepted(told.into()));
        assert_eq!(verdict.status(), 0);
    }
    let layouts = fold_text(&sent);
    let plan = reference::fold_text(&layouts);
    let told = "accepted: a plan of 4 line(s) and 5 piece(s)";
    for verdict in [check(None, &plan), check(Some(&layouts), &plan)] {
        assert_eq!(verdict, Verdict::Accepted(told.into()));
    }
}

#[test]
fn the_bound_is_told() {
    let answer = |end: &[usize]| line(&[7, 1, 0, 1, 1, 1, 1, 0, 0, 0]) + &line(end);
    for (end, told) in [
        ([8, 3, 5, 2, 1], "no plan is cheaper"),
        ([8, 3, 3, 2, 0], "every plan costs at least 2"),
        ([8, 3, 0, 1, 0], "nothing is known of cheaper plans"),
    ] {
        let verdict = check(None, answer(&end).as_bytes());
        assert!(verdict.words().ends_with(told), "{verdict:?}");
    }
}

#[test]
fn a_bound_that_is_none_is_told() {
    let answer = |end: &[usize]| line(&[7, 1, 0, 1, 1, 1, 1, 0, 0, 0]) + &line(end);
    for end in [[8, 1, 5, 0, 0], [8, 1, 5, 10_000, 0], [8, 1, 5, 1, 2]] {
        let verdict = check(None, answer(&end).as_bytes());
        assert_eq!(verdict.status(), 2);
        assert!(verdict
            .words()
            .contains("D is from 1 to 9,999, cheapest 0 or 1"));
    }
}

#[test]
fn carriage_returns_are_named() {
    let answer = String::from_utf8(reference::saw_text(&text(1))).unwrap();
    let verdict = check(None, answer.replace('\n', "\r\n").as_bytes());
    assert_eq!(verdict.status(), 2);
    let told = "line 1 ends with byte 13, a carriage return, which the programs do not write";
    assert!(verdict.words().starts_with(told), "{verdict:?}");
}

#[test]
fn a_refusal_is_told_as_far_as_it_is_known() {
    let sent = text(3);
    let answer = reference::saw_text(&sent);
    let words = "refused with 12, place 2; \"office explain TEXT 12 2\" says why";
    assert_eq!(check(None, &answer), Verdict::Refused(words.into()));
    let verdict = check(Some(&sent), &answer);
    let told = "Refusal 12, plate type 2: it is 4 by 4, stage 2, is cut 3 times";
    assert!(verdict.words().starts_with(told), "{verdict:?}");
    assert_eq!(verdict.status(), 1);
    let verdict = check(Some(&text(1)), &answer);
    assert!(verdict.words().contains("is it the text that was sent?"));
    assert_eq!(verdict.status(), 1);
}

#[test]
fn an_answer_cut_short_anywhere_is_none() {
    let answer = reference::saw_text(&text(1));
    for length in 0..answer.len() {
        let verdict = check(None, &answer[..length]);
        assert_eq!(verdict.status(), 2, "{length}: {verdict:?}");
    }
    let sent = text(3);
    let refusal = reference::saw_text(&sent);
    for length in 0..refusal.len() {
        assert_eq!(check(Some(&sent), &refusal[..length]).status(), 2);
    }
}

#[test]
fn a_line_left_out_or_twice_is_seen() {
    let sent = text(1);
    let answer = reference::saw_text(&sent);
    let lines: Vec<&[u8]> = answer.split_inclusive(|&byte| byte == b'\n').collect();
    for place in 0..lines.len() {
        let without = [&lines[..place], &lines[place + 1..]].concat().concat();
        assert_eq!(check(Some(&sent), &without).status(), 2, "{place}");
        let twice = [&lines[..=place], &lines[place..]].concat().concat();
        assert_eq!(check(None, &twice).status(), 2, "{place}");
    }
    let without_second = [&lines[..1], &lines[2..]].concat().concat();
    assert_eq!(
        check(None, &without_second).status(),
        0,
        "in turn all the same"
    );
    let without_first = lines[1..].concat();
    assert_eq!(check(None, &without_first).status(), 2);
}

#[test]
fn what_is_no_answer_is_told() {
    let answer = reference::saw_text(&text(1));
    let plan = reference::fold_text(&fold_text(&text(1)));
    let refusal = line(&[9, 12, 2]).into_bytes();
    let windows = String::from_utf8(answer.clone())
        .unwrap()
        .replace('\n', "\r\n");
    let cases: [(Vec<u8>, &str); 12] = [
        (Vec::new(), "it is empty"),
        (b"\n".to_vec(), "line 1 is none"),
        (text(1), "a text for the saw"),
        (b"saw: killed\n".to_vec(), "line 1 is none"),
        (windows.into_bytes(), "line 1 ends with byte 13"),
        (
            line(&[8, 2, 0, 1, 0]).into_bytes(),
            "lines of kind 7 and then",
        ),
        (
            [&answer[..], &answer[..]].concat(),
            "lines of kind 7 and then",
        ),
        ([&refusal[..], &refusal[..]].concat(), "stands alone"),
        (line(&[9, 0, 0]).into_bytes(), "there is no refusal 0"),
        (line(&[9, 21, 1]).into_bytes(), "they run from 1 to 20"),
        ([&plan[..], &plan[..]].concat(), "with rising cuts"),
        (line(&[7, 1, 0, 1, 1, 1, 1]).into_bytes(), "line 1 is none"),
    ];
    for (output, told) in cases {
        is_none(&output, told);
    }
    is_none(
        include_bytes!("../../../examples/a.txt"),
        "a text for the saw",
    );
}

/// An output is no answer, and this is said of it.
fn is_none(output: &[u8], told: &str) {
    let verdict = check(None, output);
    assert_eq!(verdict.status(), 2, "{verdict:?}");
    assert!(verdict.words().contains(told), "{verdict:?}");
}

#[test]
fn a_line_8_that_contradicts_itself_is_no_answer() {
    let answer = reference::saw_text(&text(1));
    let pieces = &answer[..answer.len() - line(&[8, 2, 0, 1, 0]).len()];
    for (sum, cheapest) in [(3, 0), (3, 1), (2, 0), (1, 1), (0, 1)] {
        let end = line(&[8, 2, sum, 1, cheapest]);
        let told = format!("a bound of {sum}/1 and ends with {cheapest}, which does not go with");
        is_none(&[pieces, end.as_bytes()].concat(), &told);
    }
}

#[test]
fn an_answer_to_another_text_is_none() {
    let answer = reference::saw_text(&text(1));
    let verdict = check(Some(&text(2)), &answer);
    assert!(verdict.words().contains("not the answer to the text given"));
    assert_eq!(verdict.status(), 2);
    let layouts = fold_text(&text(1));
    let plan = reference::fold_text(&layouts);
    let short = &plan[..plan.len() / 4 * 3];
    assert_eq!(
        check(None, short).status(),
        0,
        "nothing marks the end of a plan"
    );
    assert_eq!(check(Some(&layouts), short).status(), 2);
}
