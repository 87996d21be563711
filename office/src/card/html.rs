//! The card as an HTML page for A4.

use super::text::{Block, Span, Style};
use crate::table::escaped;

/// The head of the page: sizes are those of print, so that it fits one page also where the widest of the
/// fonts that it names, DejaVu Sans, is the only one there is.
const HEAD: &str = "<!DOCTYPE html>
<html lang=\"en\"><head><meta charset=\"utf-8\"><title>At the panel</title>
<style>
@page { size: A4 portrait; margin: 10mm }
body { font: 8pt/1.2 Arial, Helvetica, \"DejaVu Sans\", sans-serif; margin: 0 auto; max-width: 190mm; color: #000 }
h1 { font-size: 14pt; margin: 0 0 2mm }
p { margin: 1.5mm 0 }
table { border-collapse: collapse; width: 99.8%; margin: 1.5mm 0 }
th, td { border: 0.3pt solid #666; padding: 0.5mm 1.2mm; text-align: left; vertical-align: top }
td:first-child, th:first-child { text-align: center; width: 5% }
th:nth-child(2) { width: 37% } th:nth-child(3) { width: 16% }
code { font-size: 7.5pt }
</style></head><body>
";

/// The page.
pub fn page(blocks: &[Block]) -> String {
    let mut page = String::from(HEAD);
    for block in blocks {
        match block {
            Block::Heading(spans) => page.push_str(&format!("<h1>{}</h1>\n", set(spans))),
            Block::Paragraph(spans) => page.push_str(&format!("<p>{}</p>\n", set(spans))),
            Block::Table(rows) => {
                page.push_str("<table>\n");
                for (place, row) in rows.iter().enumerate() {
                    let tag = if place == 0 { "th" } else { "td" };
                    let cell = |cell: &Vec<Span>| format!("<{tag}>{}</{tag}>", set(cell));
                    let cells: String = row.iter().map(cell).collect();
                    page.push_str(&format!("<tr>{cells}</tr>\n"));
                }
                page.push_str("</table>\n");
            }
        }
    }
    page.push_str("</body></html>\n");
    page
}

/// Spans as HTML.
fn set(spans: &[Span]) -> String {
    let one = |span: &Span| {
        let text = escaped(&span.text);
        match span.style {
            Style::Plain => text,
            Style::Bold => format!("<b>{text}</b>"),
            Style::Code => format!("<code>{text}</code>"),
        }
    };
    spans.iter().map(one).collect()
}
