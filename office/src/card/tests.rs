//! The card in both forms has the words of docs/PANEL.md, all of them, on one page.

use super::text::{Block, Span, Style};
use super::*;

/// The words of the document, in order.
fn words() -> Vec<String> {
    let mut all = Vec::new();
    let mut take = |spans: &Vec<Span>| {
        let text: String = spans.iter().map(|span| span.text.as_str()).collect();
        all.extend(text.split_ascii_whitespace().map(str::to_string));
    };
    for block in text::blocks(CARD) {
        match block {
            Block::Heading(spans) | Block::Paragraph(spans) => take(&spans),
            Block::Table(rows) => rows.iter().flatten().for_each(&mut take),
        }
    }
    all
}

/// A file of the card.
fn file(place: usize) -> String {
    String::from_utf8(files().unwrap()[place].1.clone()).unwrap()
}

#[test]
fn the_document_is_read() {
    let words = words();
    assert_eq!(words[..3], ["At", "the", "panel:"]);
    let marked: Vec<String> = CARD
        .split_ascii_whitespace()
        .map(|word| {
            word.replace(['*', '`', '|', '#', ':'], "")
                .replace("---", "")
        })
        .collect();
    let plain: Vec<String> = words.iter().map(|word| word.replace(':', "")).collect();
    let marked: Vec<String> = marked
        .into_iter()
        .filter(|word| !word.is_empty() && word != "-")
        .collect();
    assert_eq!(plain, marked);
}

#[test]
fn the_pdf_file_has_every_word_on_one_page() {
    let pdf = file(1);
    assert_eq!(pdf.matches("/Type /Page ").count(), 1);
    let mut drawn = String::new();
    for line in pdf.lines().filter_map(|line| line.strip_suffix(") Tj ET")) {
        let (_, letters) = line.split_once(" Td (").unwrap();
        drawn.push_str(&letters.replace("\\(", "(").replace("\\)", ")"));
    }
    // Words that are set in two styles are drawn in two parts.
    assert_eq!(drawn, words().concat());
}

#[test]
fn the_pdf_file_says_where_its_objects_begin() {
    let pdf = file(1);
    assert!(pdf.starts_with("%PDF-1.4\n") && pdf.ends_with("%%EOF\n"));
    let table: usize = pdf.lines().rev().nth(1).unwrap().parse().unwrap();
    let lines: Vec<&str> = pdf[table..].lines().collect();
    assert_eq!(lines[..2], ["xref", "0 9"]);
    for number in 1..=8 {
        let begin: usize = lines[2 + number][..10].parse().unwrap();
        assert!(pdf[begin..].starts_with(&format!("{number} 0 obj\n")));
    }
    let stream = pdf.split("stream\n").nth(1).unwrap();
    let content = stream.strip_suffix("end").unwrap();
    assert!(pdf.contains(&format!("<< /Length {} >>", content.len())));
}

#[test]
fn words_and_rules_stay_on_the_page() {
    let page = layout::page(&text::blocks(CARD)).unwrap();
    let [wide, high] = layout::PAGE;
    for word in &page.words {
        let end = word.x + fonts::width(&word.text, word.style, word.size);
        let inside =
            word.x >= 29.0 && end <= wide - 29.0 && word.y >= 25.0 && word.y <= high - 29.0;
        assert!(inside, "{word:?}");
        assert!(word.size >= 8.0);
    }
    for [x, y, to_x, to_y] in page.rules {
        assert!(x >= 29.0 && to_x <= wide - 29.0 && y <= high && to_y >= 25.0);
    }
}

#[test]
fn a_card_that_is_too_long_is_told() {
    let long = text::blocks(&format!("{CARD}\n{CARD}"));
    assert!(layout::page(&long).unwrap_err().contains("one A4 page"));
}

#[test]
fn the_page_is_for_a4_and_keeps_the_styles() {
    let html = file(0);
    assert!(html.contains("@page { size: A4 portrait"));
    // Half of a table's outer rule lies beyond its width, and at the edge of the page would not be printed.
    assert!(html.contains("table { border-collapse: collapse; width: 99.8%;"));
    for number in 1..=20 {
        assert_eq!(
            html.matches(&format!("<td><b>{number}</b></td>")).count(),
            1
        );
    }
    assert!(html.contains("<code>office explain TEXT REFUSAL PLACE</code>"));
    assert_eq!(html.matches("<table>").count(), 2);
    assert_eq!(fonts::width("abc 1", Style::Code, 10.0), 30.0);
}

/// The widths of DejaVu Sans's letters, plain and bold, in thousandths of the size, from the blank to the
/// tilde. Its fixed width is 602.
const DEJAVU: [u16; 95] = [
    318, 401, 460, 838, 636, 950, 780, 275, 390, 390, 500, 838, 318, 361, 318, 337, 636, 636, 636,
    636, 636, 636, 636, 636, 636, 636, 337, 337, 838, 838, 838, 531, 1000, 684, 686, 698, 770, 632,
    575, 775, 752, 295, 295, 656, 557, 863, 748, 787, 603, 787, 695, 635, 611, 732, 684, 989, 685,
    611, 685, 390, 337, 390, 838, 500, 500, 613, 635, 550, 635, 615, 352, 635, 634, 278, 278, 579,
    278, 974, 634, 612, 635, 635, 411, 521, 392, 634, 592, 818, 592, 592, 525, 636, 337, 636, 838,
];
const DEJAVU_BOLD: [u16; 95] = [
    348, 456, 521, 838, 696, 1002, 872, 306, 457, 457, 523, 838, 380, 415, 380, 365, 696, 696, 696,
    696, 696, 696, 696, 696, 696, 696, 400, 400, 838, 838, 838, 580, 1000, 774, 762, 734, 830, 683,
    683, 821, 837, 372, 372, 775, 637, 995, 837, 850, 733, 850, 770, 720, 682, 812, 774, 1103, 771,
    724, 725, 457, 365, 457, 838, 500, 500, 675, 716, 593, 716, 678, 435, 716, 712, 343, 343, 665,
    343, 1042, 712, 687, 716, 716, 493, 595, 478, 712, 652, 924, 645, 652, 582, 712, 365, 712, 838,
];

/// How many lines of a width spans take in DejaVu Sans, in sizes for text and for code; the heading's and
/// the tables' heads are bold.
fn lines(spans: &[Span], bold: bool, [size, code]: [f64; 2], wide: f64) -> f64 {
    let letter = |style: Style, letter: char| {
        let place = (letter as usize).wrapping_sub(32);
        let (widths, size) = match style {
            Style::Code => return 0.602 * code,
            Style::Bold => (&DEJAVU_BOLD, size),
            Style::Plain if bold => (&DEJAVU_BOLD, size),
            Style::Plain => (&DEJAVU, size),
        };
        f64::from(widths.get(place).copied().unwrap_or(636)) * size / 1000.0
    };
    let all = spans.iter().flat_map(|span| {
        let letters = span.text.chars();
        letters.map(move |of_span| (of_span, letter(span.style, of_span)))
    });
    // A word is set with the blank before it, and begins a line where it has no room.
    let [mut lines, mut used, mut word, mut blank] = [1.0, 0.0, 0.0, 0.0];
    for (letter, width) in all.chain([(' ', 0.0)]) {
        match letter {
            ' ' if used > 0.0 && used + blank + word > wide => {
                (lines, used) = (lines + 1.0, word);
                [word, blank] = [0.0, width];
            }
            ' ' => {
                used += blank + word;
                [word, blank] = [0.0, width];
            }
            _ => word += width,
        }
    }
    lines
}

/// The number that stands after some letters of the page's style.
fn styled(html: &str, before: &str) -> f64 {
    let (_, after) = html.split_once(before).unwrap();
    let end = after.find(|letter: char| !letter.is_ascii_digit() && letter != '.');
    after[..end.unwrap()].parse().unwrap()
}

/// The height of the page in millimetres as a browser sets it that has DejaVu Sans alone.
fn set_in_dejavu(html: &str) -> f64 {
    const POINT: f64 = 25.4 / 72.0;
    let sizes =
        [styled(html, "font: "), styled(html, "code { font-size: ")].map(|size| size * POINT);
    let leading = sizes[0] * styled(html, "pt/");
    let wide = styled(html, "max-width: ");
    let shares = [0.05, 0.37, 0.16, 0.42];
    assert!(html.contains("th:nth-child(2) { width: 37% } th:nth-child(3) { width: 16% }"));
    let [between, above, beside, rule] = [1.5, 0.5, 1.2, 0.3];
    let mut high = 0.0;
    for block in text::blocks(CARD) {
        high += between
            + match block {
                Block::Heading(spans) => {
                    let size = styled(html, "h1 { font-size: ") * POINT;
                    lines(&spans, true, [size; 2], wide) * size * leading / sizes[0]
                }
                Block::Paragraph(spans) => lines(&spans, false, sizes, wide) * leading,
                Block::Table(rows) => {
                    let row = |(number, row): (usize, &Vec<Vec<Span>>)| {
                        let cells = row.iter().zip(shares).map(|(cell, share)| {
                            lines(cell, number == 0, sizes, share * wide - 2.0 * beside - rule)
                        });
                        cells.fold(1.0, f64::max) * leading + 2.0 * above + rule
                    };
                    rows.iter().enumerate().map(row).sum()
                }
            };
    }
    high
}

/// A4 less its margins is 277 mm high. Chromium, with DejaVu Sans alone, sets the page 248 mm high.
#[test]
fn the_page_fits_a4_in_dejavu_sans_too() {
    let html = file(0);
    assert!(html.contains("@page { size: A4 portrait; margin: 10mm }"));
    let high = set_in_dejavu(&html);
    assert!((235.0..262.0).contains(&high), "{high}");
    let larger = html.replace("font: 8pt/1.2 ", "font: 9pt/1.25 ");
    assert!(set_in_dejavu(&larger) > 277.0);
}
