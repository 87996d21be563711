//! The card on a page: lines are broken, tables ruled, and the letters as large as one page allows.

use super::fonts::width;
use super::text::{Block, Span, Spans, Style};

/// The sides of an A4 page and its margin, in points.
pub const PAGE: [f64; 2] = [595.28, 841.89];
const MARGIN: f64 = 30.0;
/// Sizes of letters, the largest first; below the last it could not be read at the saw.
const SIZES: [f64; 9] = [10.0, 9.75, 9.5, 9.25, 9.0, 8.75, 8.5, 8.25, 8.0];
/// The height of a line, the room between blocks and that inside of a cell, over the size.
const LEADING: f64 = 1.18;
const BETWEEN: f64 = 0.55;
const INSIDE: f64 = 0.3;
/// The size of the heading's letters over that of the others.
const HEADING: f64 = 1.7;
/// The shares of a table's columns.
const COLUMNS: [f64; 4] = [0.07, 0.37, 0.15, 0.41];

/// A word on the page: where it begins, its size, its style.
#[derive(Debug, Clone, PartialEq)]
pub struct Word {
    pub x: f64,
    pub y: f64,
    pub size: f64,
    pub style: Style,
    pub text: String,
}

/// The words and rules of a page; a rule goes from one point to another.
#[derive(Debug, Clone, Default, PartialEq)]
pub struct Page {
    pub words: Vec<Word>,
    pub rules: Vec<[f64; 4]>,
}

/// The page with the largest letters with which the blocks fit it.
pub fn page(blocks: &[Block]) -> Result<Page, String> {
    let fitting = SIZES.iter().find_map(|&size| laid(blocks, size));
    fitting.ok_or_else(|| "the card does not fit one A4 page".into())
}

/// The page with letters of a size, if the blocks fit it.
fn laid(blocks: &[Block], size: f64) -> Option<Page> {
    let mut laying = Laying {
        page: Page::default(),
        size,
        y: PAGE[1] - MARGIN,
    };
    let wide = PAGE[0] - 2.0 * MARGIN;
    for block in blocks {
        match block {
            Block::Heading(spans) => {
                laying.size = HEADING * size;
                laying.y -= laying.lines(&bold(spans), [MARGIN, laying.y], wide);
                laying.size = size;
            }
            Block::Paragraph(spans) => laying.y -= laying.lines(spans, [MARGIN, laying.y], wide),
            Block::Table(rows) => laying.table(rows),
        }
        laying.y -= BETWEEN * size;
    }
    (laying.y >= MARGIN - BETWEEN * size).then_some(laying.page)
}

/// The same words, all of them bold.
fn bold(spans: &[Span]) -> Spans {
    let bold = |span: &Span| Span {
        style: Style::Bold,
        ..span.clone()
    };
    spans.iter().map(bold).collect()
}

/// A page while it is laid: how far down it is filled.
struct Laying {
    page: Page,
    size: f64,
    y: f64,
}

impl Laying {
    /// Sets spans in lines of a width, from an upper left corner; gives the height that they take.
    fn lines(&mut self, spans: &[Span], [left, top]: [f64; 2], wide: f64) -> f64 {
        let [mut x, mut line] = [left, 1.0];
        for Piece { text, style, blank } in pieces(spans) {
            let needed = width(&text, style, self.size);
            let room = if blank && x > left {
                width(" ", Style::Plain, self.size)
            } else {
                0.0
            };
            if x + room + needed > left + wide && x > left {
                [x, line] = [left, line + 1.0];
            } else {
                x += room;
            }
            self.page.words.push(Word {
                x,
                y: top - (LEADING * line - 0.25) * self.size,
                size: self.size,
                style,
                text,
            });
            x += needed;
        }
        LEADING * line * self.size
    }

    /// Sets a table: its rows below each other, rules around every cell.
    fn table(&mut self, rows: &[Vec<Spans>]) {
        let wide = PAGE[0] - 2.0 * MARGIN;
        let inside = INSIDE * self.size;
        let mut edges = vec![MARGIN];
        for share in COLUMNS {
            edges.push(edges[edges.len() - 1] + share * wide);
        }
        let top = self.y;
        self.rule([MARGIN, top], [MARGIN + wide, top]);
        for (number, row) in rows.iter().enumerate() {
            let mut high: f64 = 0.0;
            for (place, cell) in row.iter().enumerate() {
                let cell = if number == 0 { &bold(cell) } else { cell };
                let corner = [edges[place] + inside, self.y - inside / 2.0];
                let room = edges[place + 1] - edges[place] - 2.0 * inside;
                high = high.max(self.lines(cell, corner, room));
            }
            self.y -= high + inside;
            self.rule([MARGIN, self.y], [MARGIN + wide, self.y]);
        }
        for edge in edges {
            self.rule([edge, top], [edge, self.y]);
        }
    }

    /// A rule from one point to another.
    fn rule(&mut self, from: [f64; 2], to: [f64; 2]) {
        self.page.rules.push([from[0], from[1], to[0], to[1]]);
    }
}

/// A word, its style, and whether a blank stands before it.
struct Piece {
    text: String,
    style: Style,
    blank: bool,
}

/// The words of spans.
fn pieces(spans: &[Span]) -> Vec<Piece> {
    let mut pieces = Vec::new();
    let mut blank = false;
    for span in spans {
        blank |= span.text.starts_with(' ');
        for (place, word) in span.text.split_ascii_whitespace().enumerate() {
            pieces.push(Piece {
                text: word.to_string(),
                style: span.style,
                blank: blank || place > 0,
            });
            blank = false;
        }
        blank |= span.text.ends_with(' ');
    }
    pieces
}
