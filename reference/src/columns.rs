//! Columns: a number right-justified in nine columns, written and read (document 01, "Texts").

use crate::refusal::Refusal;

/// Columns of one number.
pub const COLUMNS: usize = 9;

/// Writes a number of at most nine digits in nine columns.
pub fn write_group(out: &mut Vec<u8>, number: u32) {
    debug_assert!(number <= 999_999_999);
    let mut group = [b' '; COLUMNS];
    let mut rest = number;
    for column in group.iter_mut().rev() {
        *column = b'0' + (rest % 10) as u8;
        rest /= 10;
        if rest == 0 {
            break;
        }
    }
    out.extend_from_slice(&group);
}

/// Writes a line: its numbers, the kind first, and then byte 10.
pub fn write_line(out: &mut Vec<u8>, numbers: &[u32]) {
    for &number in numbers {
        write_group(out, number);
    }
    out.push(b'\n');
}

/// The one line of kind 9 that is the whole output where a text is refused.
pub fn refusal_text(refusal: Refusal) -> Vec<u8> {
    let mut out = Vec::new();
    write_line(&mut out, &[9, refusal.number, refusal.place]);
    out
}

/// The number that is written as these nine bytes, if there is one: blanks, then digits without
/// a leading zero (zero itself is "0").
pub fn read_group(group: &[u8]) -> Option<u32> {
    let blanks = group.iter().take_while(|&&byte| byte == b' ').count();
    let digits = &group[blanks..];
    match digits {
        [] => None,
        [b'0', _, ..] => None,
        _ => digits.iter().try_fold(0, |number, &byte| {
            byte.is_ascii_digit()
                .then(|| number * 10 + u32::from(byte - b'0'))
        }),
    }
}
