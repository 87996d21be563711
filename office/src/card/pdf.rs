//! A page as a PDF file: one page, three fonts that every reader has, words and rules.

use super::fonts::FONTS;
use super::layout::{Page, Word, PAGE};
use std::fmt::Write;

/// The file.
pub fn file(page: &Page) -> String {
    let content = content(page);
    let fonts = FONTS.iter().zip(4..);
    let named: String = fonts
        .clone()
        .map(|((_, name, _), object)| format!("/{name} {object} 0 R "))
        .collect();
    let [width, height] = PAGE;
    let mut objects = vec![
        "<< /Type /Catalog /Pages 2 0 R >>".to_string(),
        "<< /Type /Pages /Kids [3 0 R] /Count 1 >>".to_string(),
        format!(
            "<< /Type /Page /Parent 2 0 R /MediaBox [0 0 {width} {height}] \
             /Resources << /Font << {named}>> >> /Contents 7 0 R >>"
        ),
    ];
    objects.extend(fonts.map(|((_, _, font), _)| {
        format!("<< /Type /Font /Subtype /Type1 /BaseFont /{font} /Encoding /WinAnsiEncoding >>")
    }));
    objects.push(format!(
        "<< /Length {} >>\nstream\n{content}endstream",
        content.len()
    ));
    objects.push("<< /Title (At the panel: the two numbers) >>".to_string());
    joined(&objects)
}

/// The objects one after another, the table of where they begin, and the end of the file.
fn joined(objects: &[String]) -> String {
    let mut text = String::from("%PDF-1.4\n");
    let mut begins = Vec::new();
    for (number, object) in (1..).zip(objects) {
        begins.push(text.len());
        let _ = write!(text, "{number} 0 obj\n{object}\nendobj\n");
    }
    let [table, many] = [text.len(), objects.len() + 1];
    let _ = write!(text, "xref\n0 {many}\n0000000000 65535 f \n");
    for begin in begins {
        let _ = writeln!(text, "{begin:010} 00000 n ");
    }
    let _ = write!(
        text,
        "trailer\n<< /Size {many} /Root 1 0 R /Info {} 0 R >>\nstartxref\n{table}\n%%EOF\n",
        objects.len()
    );
    text
}

/// What is drawn: the rules, and then the words.
fn content(page: &Page) -> String {
    let mut text = String::from("0.4 w\n");
    for [x, y, to_x, to_y] in &page.rules {
        let _ = writeln!(text, "{x:.2} {y:.2} m {to_x:.2} {to_y:.2} l S");
    }
    for word in &page.words {
        let Word {
            x, y, size, style, ..
        } = word;
        let font = FONTS.iter().find(|(of, ..)| of == style);
        let font = font.map_or("F1", |(_, name, _)| name);
        let letters = letters(&word.text);
        let _ = writeln!(
            text,
            "BT /{font} {size:.2} Tf {x:.2} {y:.2} Td ({letters}) Tj ET"
        );
    }
    text
}

/// Letters as a string of the file: brackets and strokes marked, others than those of ASCII by number, and
/// a question mark for those that the fonts' encoding has not.
fn letters(text: &str) -> String {
    let mut letters = String::new();
    for letter in text.chars() {
        match letter {
            '(' | ')' | '\\' => {
                letters.push('\\');
                letters.push(letter);
            }
            ' '..='~' => letters.push(letter),
            '\u{a0}'..='\u{ff}' => {
                let _ = write!(letters, "\\{:03o}", letter as u32);
            }
            _ => letters.push('?'),
        }
    }
    letters
}
