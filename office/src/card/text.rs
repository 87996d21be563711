//! The card's text: a heading, paragraphs and tables, with bold words and words of a program.

/// How words are set.
#[derive(Debug, Clone, Copy, PartialEq, Eq)]
pub enum Style {
    Plain,
    Bold,
    Code,
}

/// Some words in one style.
#[derive(Debug, Clone, PartialEq, Eq)]
pub struct Span {
    pub text: String,
    pub style: Style,
}

/// A row of text, such as a paragraph or a cell.
pub type Spans = Vec<Span>;

/// A part of the card; a table is rows of cells, the first of them its heading.
#[derive(Debug, Clone, PartialEq, Eq)]
pub enum Block {
    Heading(Spans),
    Paragraph(Spans),
    Table(Vec<Vec<Spans>>),
}

/// The parts of a text.
pub fn blocks(text: &str) -> Vec<Block> {
    let mut blocks = Vec::new();
    for part in text.split("\n\n").map(str::trim) {
        if let Some(heading) = part.strip_prefix("# ") {
            blocks.push(Block::Heading(spans(heading)));
        } else if part.starts_with('|') {
            let rows = part.lines().filter(|line| !line.starts_with("|:-"));
            blocks.push(Block::Table(rows.map(row).collect()));
        } else if !part.is_empty() {
            let joined: Vec<&str> = part.lines().collect();
            blocks.push(Block::Paragraph(spans(&joined.join(" "))));
        }
    }
    blocks
}

/// The cells of a table's row.
fn row(line: &str) -> Vec<Spans> {
    let cells = line.trim().trim_matches('|').split('|');
    cells.map(|cell| spans(cell.trim())).collect()
}

/// The spans of a text: between two stars it is bold, between accents it is a program's.
fn spans(text: &str) -> Spans {
    let mut spans = Vec::new();
    let mut bold = false;
    for (place, part) in text.split('`').enumerate() {
        if place % 2 == 1 {
            spans.push(span(part, Style::Code));
            continue;
        }
        for (place, part) in part.split("**").enumerate() {
            bold ^= place > 0;
            let style = if bold { Style::Bold } else { Style::Plain };
            spans.push(span(part, style));
        }
    }
    spans.retain(|span| !span.text.is_empty());
    spans
}

/// Some words in one style.
fn span(text: &str, style: Style) -> Span {
    Span {
        text: text.to_string(),
        style,
    }
}
