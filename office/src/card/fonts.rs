//! The three fonts of the PDF file, which every reader has, and the widths of their letters in thousandths
//! of the font's size, from the blank to the tilde.

use super::text::Style;

/// The names of the fonts, by style.
pub const FONTS: [(Style, &str, &str); 3] = [
    (Style::Plain, "F1", "Helvetica"),
    (Style::Bold, "F2", "Helvetica-Bold"),
    (Style::Code, "F3", "Courier"),
];

const PLAIN: [u16; 95] = [
    278, 278, 355, 556, 556, 889, 667, 191, 333, 333, 389, 584, 278, 333, 278, 278, 556, 556, 556,
    556, 556, 556, 556, 556, 556, 556, 278, 278, 584, 584, 584, 556, 1015, 667, 667, 722, 722, 667,
    611, 778, 722, 278, 500, 667, 556, 833, 722, 778, 667, 778, 722, 667, 611, 722, 667, 944, 667,
    667, 611, 278, 278, 278, 469, 556, 333, 556, 556, 500, 556, 556, 278, 556, 556, 222, 222, 500,
    222, 833, 556, 556, 556, 556, 333, 500, 278, 556, 500, 722, 500, 500, 500, 334, 260, 334, 584,
];

const BOLD: [u16; 95] = [
    278, 333, 474, 556, 556, 889, 722, 238, 333, 333, 389, 584, 278, 333, 278, 278, 556, 556, 556,
    556, 556, 556, 556, 556, 556, 556, 333, 333, 584, 584, 584, 611, 975, 722, 722, 722, 722, 667,
    611, 778, 722, 278, 556, 722, 611, 833, 722, 778, 667, 778, 722, 667, 611, 722, 667, 944, 667,
    667, 611, 333, 278, 333, 584, 556, 333, 556, 611, 556, 611, 556, 333, 611, 611, 278, 278, 556,
    278, 889, 611, 611, 611, 611, 389, 556, 333, 611, 556, 778, 556, 556, 500, 389, 280, 389, 584,
];

/// The width of every letter of the program's font.
const CODE: u16 = 600;

/// The width of a text in a style and a size; other letters than those of the tables are as wide as a
/// figure.
pub fn width(text: &str, style: Style, size: f64) -> f64 {
    let of_letter = |letter: char| {
        let place = (letter as usize).wrapping_sub(32);
        let listed = |widths: &[u16; 95]| widths.get(place).copied().unwrap_or(556);
        match style {
            Style::Plain => listed(&PLAIN),
            Style::Bold => listed(&BOLD),
            Style::Code => CODE,
        }
    };
    let thousandths: u32 = text
        .chars()
        .map(|letter| u32::from(of_letter(letter)))
        .sum();
    f64::from(thousandths) * size / 1000.0
}
