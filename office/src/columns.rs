//! Columns: lines of numbers, each right-justified in nine columns (docs/FORMAT.md, "Lines").

/// Columns of one number.
pub const COLUMNS: usize = 9;

/// A line of numbers, the kind first, with its byte 10.
pub fn line(numbers: &[usize]) -> String {
    let mut text = String::new();
    for number in numbers {
        text.push_str(&format!("{number:>9}"));
    }
    text.push('\n');
    text
}

/// The numbers of a line, with any blanks between them; none if something else stands in it.
pub fn numbers(line: &str) -> Option<Vec<usize>> {
    let read = |word: &str| match word.bytes().all(|byte| byte.is_ascii_digit()) {
        true => word.parse().ok(),
        false => None,
    };
    line.split_ascii_whitespace().map(read).collect()
}

/// The same of a line with this number, a remark at its end left out. An error names the first word that is
/// not a whole number, its line and its column: its place among the words, from 1.
pub fn whole_numbers(line: &str, number: usize) -> Result<Vec<usize>, String> {
    let said = line.split('#').next().unwrap_or("");
    let words = (1..).zip(said.split_ascii_whitespace());
    let read = |(column, word): (usize, &str)| {
        whole(word).map_err(|fault| format!("{word} in line {number}, column {column}, {fault}"))
    };
    words.map(read).collect()
}

/// The number of a word. An error says what the word is instead.
pub fn whole(word: &str) -> Result<usize, &'static str> {
    let digits = !word.is_empty() && word.bytes().all(|byte| byte.is_ascii_digit());
    match (digits, word.parse()) {
        (true, Ok(number)) => Ok(number),
        (true, Err(_)) => Err("is too large a number"),
        (false, _) => Err("is not a whole number"),
    }
}

/// The lines of a text that say something, each with its number from 1: neither blank lines nor
/// remarks do, nor does a byte order mark.
pub fn said(text: &str) -> impl Iterator<Item = (usize, &str)> {
    written(text).filter(|&(_, line)| !is_remark(line))
}

/// The lines of a text that are not blank, each with its number from 1, without a byte order mark. They end
/// with byte 10, byte 13 before it or not; in a text without it, with byte 13 alone, as some spreadsheets do.
pub fn written(text: &str) -> impl Iterator<Item = (usize, &str)> {
    let text = text.strip_prefix('\u{feff}').unwrap_or(text);
    let end = if text.contains('\n') { '\n' } else { '\r' };
    let lines = text.split(end).map(|line| line.trim_end_matches('\r'));
    let lines = (1..).zip(lines);
    lines.filter(|(_, line)| !line.trim_start().is_empty())
}

/// Whether a line is a remark: it begins with "#".
pub fn is_remark(line: &str) -> bool {
    line.trim_start().starts_with('#')
}

/// The number that is written as these nine bytes, if there is one: blanks, then digits without a
/// leading zero (zero itself is "0").
pub fn group(bytes: &[u8]) -> Option<usize> {
    let digits = bytes.trim_ascii_start();
    let number = std::str::from_utf8(digits).ok()?.parse().ok()?;
    match format!("{number:>9}").as_bytes() == bytes {
        true => Some(number),
        false => None,
    }
}

/// A number with a comma after each thousand, as in "4,000".
pub fn thousands(number: usize) -> String {
    match number {
        0..=999 => number.to_string(),
        _ => format!("{},{:03}", thousands(number / 1000), number % 1000),
    }
}

#[cfg(test)]
mod tests {
    use super::*;

    #[test]
    fn a_line_has_nine_columns_for_each_number() {
        assert_eq!(
            line(&[3, 0, 1, 4000, 999_999_999]),
            "        3        0        1     4000999999999\n"
        );
    }

    #[test]
    fn numbers_may_stand_with_any_blanks() {
        assert_eq!(numbers(" 2  1 5\t4  2\r"), Some(vec![2, 1, 5, 4, 2]));
        assert_eq!(numbers("2 x"), None);
        assert_eq!(numbers("2 +1"), None);
        assert_eq!(numbers(""), Some(vec![]));
    }

    #[test]
    fn a_word_that_is_no_whole_number_is_named() {
        assert_eq!(whole_numbers("2 1 5", 4), Ok(vec![2, 1, 5]));
        assert_eq!(whole_numbers("2 1 5# 4.5", 4), Ok(vec![2, 1, 5]));
        for (line, told) in [
            ("2 5.5 3", "5.5 in line 3, column 2, is not a whole number"),
            ("  2 1 -4", "-4 in line 3, column 3, is not a whole number"),
            (
                "2 99999999999999999999",
                "99999999999999999999 in line 3, column 2, is too large a number",
            ),
        ] {
            assert_eq!(whole_numbers(line, 3), Err(told.to_string()));
        }
    }

    #[test]
    fn remarks_and_blank_lines_say_nothing() {
        let text = "\u{feff}# a remark\n1 2\n\n \t\n  # another\n2 1\n";
        assert_eq!(said(text).collect::<Vec<_>>(), [(2, "1 2"), (6, "2 1")]);
        assert_eq!(said("\u{feff}1 2").collect::<Vec<_>>(), [(1, "1 2")]);
        for text in ["1 2\r\n\r\n2 1\r\n", "1 2\r\r2 1\r", "1 2\n\n2 1"] {
            assert_eq!(said(text).collect::<Vec<_>>(), [(1, "1 2"), (3, "2 1")]);
        }
    }

    #[test]
    fn a_group_is_what_the_writer_writes() {
        assert_eq!(group(b"        0"), Some(0));
        assert_eq!(group(b"123456789"), Some(123_456_789));
        for wrong in [
            "       00",
            "       1 ",
            "         ",
            "       +1",
            "      1.0",
            "       01",
        ] {
            assert_eq!(group(wrong.as_bytes()), None, "{wrong}");
        }
    }

    #[test]
    fn thousands_have_commas() {
        assert_eq!(thousands(999), "999");
        assert_eq!(thousands(4000), "4,000");
        assert_eq!(thousands(39_996_000), "39,996,000");
    }
}
