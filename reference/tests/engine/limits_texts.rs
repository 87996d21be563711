//! Line 99,999 and line 100,000 of both texts (document 01, "Texts").

use crate::common::texts::{after_job_a, assert_text, line, lines, refusal};
use reference::{fold_text, saw_text};

/// Repeats a line.
fn repeated(numbers: &[u32], times: usize) -> Vec<u8> {
    line(numbers).repeat(times)
}

/// Job A's four lines and then one line so often that the text has so many lines.
fn filled(numbers: &[u32], last: usize) -> Vec<u8> {
    let mut text = after_job_a(&[]);
    text.extend(repeated(numbers, last - 4));
    text
}

#[test]
fn a_saw_text_may_have_99_999_lines() {
    let cut: &[u32] = &[3, 0, 1, 1, 9, 7, 1, 0];
    assert_text(&saw_text(&filled(cut, 99_999)), &refusal(9, 6));
    assert_text(&saw_text(&filled(cut, 100_000)), &refusal(1, 100_000));
    assert_text(&saw_text(&filled(cut, 100_001)), &refusal(1, 100_000));
}

#[test]
fn a_fold_text_may_have_99_999_lines() {
    let layout: &[u32] = &[7, 1, 0, 1, 1, 1, 1, 0, 0, 0];
    assert_text(&fold_text(&filled(layout, 99_999)), &refusal(10, 0));
    assert_text(&fold_text(&filled(layout, 100_000)), &refusal(1, 100_000));
}

#[test]
fn line_100_000_is_1_whatever_it_holds() {
    for byte in [b'\n', b' ', b'3', 0] {
        let mut text = filled(&[3, 0, 1, 1, 9, 7, 1, 0], 99_999);
        text.push(byte);
        assert_text(&saw_text(&text), &refusal(1, 100_000));
        let mut text = filled(&[7, 1, 0, 1, 1, 1, 1, 0, 0, 0], 99_999);
        text.push(byte);
        assert_text(&fold_text(&text), &refusal(1, 100_000));
    }
    let mut text = filled(&[3, 0, 1, 1, 9, 7, 1, 0], 99_999);
    text.extend(line(&[3, 0, 1, 0, 9, 7, 1, 0]));
    assert_text(&saw_text(&text), &refusal(1, 100_000));
}

#[test]
fn an_earlier_line_is_refused_before_line_100_000() {
    let mut text = filled(&[3, 0, 1, 1, 9, 7, 1, 0], 50_000);
    text.extend(line(&[3, 0, 1, 0, 9, 7, 1, 0]));
    text.extend(repeated(&[3, 0, 1, 1, 9, 7, 1, 0], 60_000));
    assert_text(&saw_text(&text), &refusal(2, 50_001));
    let mut text = filled(&[7, 1, 0, 1, 1, 1, 1, 0, 0, 0], 99_998);
    text.extend(line(&[7, 0, 0, 1, 1, 1, 1, 0, 0, 0]));
    text.push(b' ');
    assert_text(&fold_text(&text), &refusal(2, 99_999));
}

#[test]
fn line_99_999_is_judged_as_any_other() {
    let mut text = filled(&[3, 0, 1, 1, 9, 7, 1, 0], 99_998);
    text.extend(line(&[3, 0, 1, 0, 9, 7, 1, 0]));
    assert_text(&saw_text(&text), &refusal(2, 99_999));
    let mut text = filled(&[3, 0, 1, 1, 9, 7, 1, 0], 99_998);
    text.extend(b"        3        0        1        1        9        7        1        0");
    assert_text(&saw_text(&text), &refusal(1, 99_999));
}

#[test]
fn a_line_missing_after_99_999_is_line_100_000() {
    let mut text = filled(&[3, 0, 1, 1, 9, 7, 1, 0], 99_998);
    text.extend(line(&[4, 1, 2, 5]));
    assert_text(&saw_text(&text), &refusal(1, 100_000));
    // The last price stands on line 99,999, or would stand on line 100,000.
    let prices = lines(&[&[4, 1, 2, 0], &[5, 1, 0], &[5, 2, 0]]);
    let mut text = filled(&[3, 0, 1, 1, 9, 7, 1, 0], 99_996);
    text.extend(&prices);
    assert_text(&saw_text(&text), &refusal(9, 6));
    let mut text = filled(&[3, 0, 1, 1, 9, 7, 1, 0], 99_997);
    text.extend(&prices);
    assert_text(&saw_text(&text), &refusal(1, 100_000));
}

#[test]
fn the_longest_texts_that_the_line_row_admits() {
    let mut head = vec![lines(&[&[1, 2, 0, 1, 40, 0], &[10, 0, 2, 1, 1]])];
    head.extend((1..=40).map(|number| line(&[2, number, 1, 1, 1, 0])));
    let mut text = head.concat();
    text.extend(repeated(&[3, 0, 1, 1, 2, 1, 1, 0], 99_957));
    assert_eq!(text.len(), 7_299_162);
    assert_text(&saw_text(&text), &refusal(9, 44));
    // A line of kind 3 is longer than one of kind 2: the fewer types, the longer the text.
    let one = lines(&[&[1, 2, 0, 1, 1, 0], &[10, 0, 2, 1, 1], &[2, 1, 1, 1, 1, 0]]);
    let mut text = one.clone();
    text.extend(repeated(&[3, 0, 1, 1, 2, 1, 1, 0], 99_996));
    assert_eq!(text.len(), 7_299_864);
    assert_text(&saw_text(&text), &refusal(9, 5));
    let mut text = one;
    text.extend(repeated(&[7, 1, 0, 1, 1, 1, 1, 0, 0, 0], 99_996));
    assert_eq!(text.len(), 9_099_792);
    assert_text(&fold_text(&text), &refusal(10, 0));
}
