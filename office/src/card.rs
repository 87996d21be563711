//! The operator's card: docs/PANEL.md on one A4 page, as HTML and as PDF.

mod fonts;
mod html;
mod layout;
mod pdf;
mod text;

/// The card as it is written.
const CARD: &str = include_str!("../../docs/PANEL.md");

/// The files of the card. An error says that it does not fit a page.
pub fn files() -> Result<[(&'static str, Vec<u8>); 2], String> {
    let blocks = text::blocks(CARD);
    Ok([
        ("panel.html", html::page(&blocks).into_bytes()),
        ("panel.pdf", pdf::file(&layout::page(&blocks)?).into_bytes()),
    ])
}

#[cfg(test)]
mod tests;
