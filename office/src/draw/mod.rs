//! Drawings: each pattern of the saw's answer, with what remains of its boards, as an SVG picture,
//! and all of them on one HTML page.

mod colour;
mod drawing;
mod label;
mod marks;
mod page;
mod strips;
mod style;
mod svg;

pub use colour::colour;
pub use drawing::BEGIN;
pub use page::page;

#[cfg(test)]
mod page_tests;
#[cfg(test)]
mod tests;
