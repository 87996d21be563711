//! Groups of nine columns and lines of them, byte by byte (document 01, "Texts").

use crate::common::random::Random;
use crate::common::texts::{after_job_a, assert_text, line, lines, refusal};
use reference::columns::{read_group, write_group, write_line};
use reference::{fold_text, saw_text};

/// A number as it is written.
fn written(number: u32) -> Vec<u8> {
    let mut group = Vec::new();
    write_group(&mut group, number);
    group
}

#[test]
fn numbers_are_right_justified_with_blanks() {
    assert_eq!(written(0), b"        0");
    assert_eq!(written(7), b"        7");
    assert_eq!(written(10), b"       10");
    assert_eq!(written(39_996_000), b" 39996000");
    assert_eq!(written(999_999_999), b"999999999");
}

#[test]
fn what_is_written_is_read() {
    let mut random = Random::new(7);
    let mut numbers: Vec<u32> = (0..20_000).collect();
    numbers.extend((0..9).map(|power| 10_u32.pow(power)));
    numbers.extend((1..=9).map(|power| (10_u64.pow(power) - 1) as u32));
    numbers.extend((0..20_000).map(|_| random.below(1_000_000_000) as u32));
    for number in numbers {
        let group = written(number);
        assert_eq!(group, format!("{number:>9}").into_bytes());
        assert_eq!(read_group(&group), Some(number));
    }
}

#[test]
fn what_is_read_is_what_would_be_written() {
    // Random groups over few bytes: each is read only if it is what the writer writes.
    let mut random = Random::new(8);
    let bytes = b"   00123459- +.\t\r\n\x00x";
    let mut read = 0;
    for _ in 0..300_000 {
        let digits = random.below(10);
        let group: Vec<u8> = (0..9)
            .map(|column| match column + digits < 9 {
                true if random.below(20) > 0 => b' ',
                _ => random.pick(bytes),
            })
            .collect();
        if let Some(number) = read_group(&group) {
            assert_eq!(group, written(number));
            read += 1;
        }
    }
    assert!(read > 10_000, "{read} groups were read");
}

#[test]
fn other_groups_are_not_read() {
    let groups: [&[u8; 9]; 16] = [
        b"         ",
        b"       00",
        b"       07",
        b"000000007",
        b"7        ",
        b"       7 ",
        b"      1 7",
        b"       -7",
        b"       +7",
        b"       7.",
        b"      7\t ",
        b"\t       7",
        b"       7\r",
        b"       7\n",
        b"       0x",
        b"        \xb2",
    ];
    for group in groups {
        assert_eq!(read_group(group), None, "{group:?}");
    }
}

#[test]
fn a_line_ends_with_byte_10() {
    let mut out = Vec::new();
    write_line(&mut out, &[8, 2, 39_996_000, 1, 0]);
    assert_eq!(out, line(&[8, 2, 39_996_000, 1, 0]));
    assert_eq!(out.len(), 46);
    assert_eq!(out.last(), Some(&10));
}

/// A text of which line 4, a line of kind 3, is given as bytes.
fn with_line_4(bytes: &[u8]) -> Vec<u8> {
    let mut text = after_job_a(&[]);
    text.extend(bytes);
    text.extend(line(&[3, 1, 2, 1, 9, 3, 1, 0]));
    text
}

#[test]
fn a_line_not_of_the_form_is_1_naming_itself() {
    let good = line(&[3, 0, 1, 2, 9, 7, 1, 0]);
    assert!(saw_text(&with_line_4(&good)).starts_with(&line(&[9, 11, 2])));
    let forms: [&[u8]; 19] = [
        b"\n",
        b" \n",
        b"\r\n",
        b"3 0 1 2\n",
        b"        3        0        1        2\n",
        b"        3        0        1        2        0\n",
        b"        3        0        1        2        9        7        1\n",
        b"        3        0        1        2        9        7        0\n",
        b"        3        0        1        2        9        7        1        0        0\n",
        b"        3        0        1        2        9        7        1        0 \n",
        b"        3        0        1        2        9        7        1        0\r\n",
        b"        3        0        1        2        9        7        1        0",
        b"        3        0        1       02        9        7        1        0\n",
        b"        3        0        1        2       09        7        1        0\n",
        b"        3        0        1        2        9        -        1        0\n",
        b"        3        0        1        2        9        7                 0\n",
        b"       03        0        1        2        9        7        1        0\n",
        b"        3        0        1 2               9        7        1        0\n",
        b"        3        0\t       1        2        9        7        1        0\n",
    ];
    for form in forms {
        assert_text(&saw_text(&with_line_4(form)), &refusal(1, 5));
    }
}

#[test]
fn every_byte_of_a_line_is_looked_at() {
    let good = line(&[3, 0, 1, 2, 9, 7, 1, 0]);
    for index in 0..good.len() {
        for byte in [0, 9, 13, b'-', b'.', b'a', 0xff] {
            let mut bytes = good.clone();
            bytes[index] = byte;
            assert_text(&saw_text(&with_line_4(&bytes)), &refusal(1, 5));
        }
    }
}

#[test]
fn a_line_without_its_byte_10_at_the_end_of_the_text_is_1_naming_itself() {
    let whole = after_job_a(&[&[3, 0, 1, 2, 9, 7, 1, 0], &[3, 1, 2, 1, 9, 3, 1, 0]]);
    let starts = [0, 55, 101, 156, 211, 284];
    for length in 0..whole.len() {
        let number = starts.iter().filter(|&&start| start < length).count() as u32;
        let answer = saw_text(&whole[..length]);
        match length {
            0 => assert_text(&answer, &refusal(1, 1)),
            55 => assert_text(&answer, &refusal(1, 2)),
            101 => assert_text(&answer, &refusal(1, 3)),
            156 => assert_text(&answer, &refusal(1, 4)),
            211 => assert_text(&answer, &refusal(11, 1)),
            284 => assert_text(&answer, &refusal(11, 2)),
            _ => assert_text(&answer, &refusal(1, number)),
        }
    }
}

#[test]
fn numbers_of_nine_digits_are_values_outside_limits_not_faults_of_form() {
    let text = after_job_a(&[&[3, 0, 1, 999_999_999, 9, 7, 1, 0]]);
    assert_text(&saw_text(&text), &refusal(2, 5));
    let text = lines(&[&[1, 999_999_999, 0, 1, 1, 0]]);
    assert_text(&saw_text(&text), &refusal(2, 1));
    assert_text(&fold_text(&text), &refusal(2, 1));
}

#[test]
fn values_that_would_wrap_to_a_word_within_limits_are_outside() {
    for head in [
        [1, 65_538, 0, 1, 1, 0],
        [1, 2, 0, 65_537, 1, 0],
        [1, 2, 0, 1, 1, 65_536],
    ] {
        let text = lines(&[&head, &[10, 0, 9, 7, 1], &[2, 1, 5, 4, 1, 0]]);
        assert_text(&saw_text(&text), &refusal(2, 1));
        assert_text(&fold_text(&text), &refusal(2, 1));
    }
    for size in [[65_545, 7, 1], [9, 65_543, 1], [9, 7, 65_537]] {
        let size = [10, 0, size[0], size[1], size[2]];
        let text = lines(&[&[1, 2, 0, 1, 1, 0], &size, &[2, 1, 5, 4, 1, 0]]);
        assert_text(&saw_text(&text), &refusal(2, 2));
        assert_text(&fold_text(&text), &refusal(2, 2));
    }
    let text = lines(&[
        &[1, 2, 0, 1, 1, 0],
        &[10, 0, 9, 7, 1],
        &[2, 1, 65_541, 4, 1, 0],
    ]);
    assert_text(&saw_text(&text), &refusal(2, 3));
    let text = after_job_a(&[&[3, 65_536, 1, 1, 1, 1, 1, 0]]);
    assert_text(&saw_text(&text), &refusal(2, 5));
    let text = after_job_a(&[&[7, 65_537, 0, 1, 1, 1, 1, 0, 0, 0]]);
    assert_text(&fold_text(&text), &refusal(2, 5));
    let text = after_job_a(&[&[7, 1, 65_536, 1, 1, 1, 1, 0, 0, 0]]);
    assert_text(&fold_text(&text), &refusal(2, 5));
    let text = after_job_a(&[&[7, 1, 0, 1, 1, 1, 1, 65_536, 0, 0]]);
    assert_text(&fold_text(&text), &refusal(2, 5));
}
