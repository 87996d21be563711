//! The two texts, and their answers by the reference.

#[derive(Clone, Copy, PartialEq, Eq)]
pub enum Text {
    Saw,
    Fold,
}

impl Text {
    pub const BOTH: [Text; 2] = [Text::Saw, Text::Fold];

    pub fn name(self) -> &'static str {
        match self {
            Text::Saw => "saw text",
            Text::Fold => "fold text",
        }
    }

    /// The reference's answer.
    pub fn answer(self, text: &[u8]) -> Vec<u8> {
        match self {
            Text::Saw => reference::saw_text(text),
            Text::Fold => reference::fold_text(text),
        }
    }

    /// The bytes of the longest answer: 4,000 lines of kind 7 and one of kind 8, or 4,000 lines of kind 3.
    pub fn longest(self) -> usize {
        match self {
            Text::Saw => 4_000 * 91 + 46,
            Text::Fold => 4_000 * 73,
        }
    }

    /// The refusal numbers that a text of this kind can be given (document 01, "Where each number is
    /// given"; document 02, One and Five). 5 is none of them: a text is lent nothing.
    pub fn refusals(self) -> &'static [u32] {
        match self {
            Text::Saw => &[1, 2, 3, 4, 6, 7, 8, 9, 10, 11, 12, 13, 14, 19, 20],
            Text::Fold => &[1, 2, 3, 4, 6, 7, 10, 11, 15, 16, 17, 18, 19],
        }
    }
}

/// The refusal that an output is, if it is one line of kind 9.
pub fn refusal_in(output: &[u8]) -> Option<u32> {
    let text = std::str::from_utf8(output).unwrap();
    let mut numbers = text.split_whitespace();
    match numbers.next() {
        Some("9") => numbers.next()?.parse().ok(),
        _ => None,
    }
}
