//! Reference implementation of the beam saw plan engine, written from document 01 and requests One to
//! Six of document 02.
//!
//! Layers, bottom up: the job with its board sizes, and its limits; plates, cuts and their listing; plans, prices,
//! layouts, unfolding with its offcuts and their balance, and folding as structures; the five calls
//! over words; the two texts. Beside them: the published instances and the jobs at the limits, with plans for them.

pub mod balance;
pub mod buffers;
pub mod calls;
pub mod columns;
pub mod fold_text;
pub mod folding;
pub mod greedy;
pub mod instances;
pub mod job;
pub mod layout;
pub mod layout_lines;
pub mod limits;
pub mod listing;
pub mod mode;
pub mod offcut;
pub mod plan;
pub mod plan_lines;
pub mod plate;
pub mod position;
pub mod prices;
pub mod refusal;
pub mod saw_text;
pub mod size;
pub mod swath;
pub mod text_lines;
pub mod unfolding;
pub mod waste;

pub use balance::Balance;
pub use calls::{fold, list, test_plan, test_prices, unfold, Listed, Unfolded};
pub use fold_text::fold_text;
pub use job::{Item, Job};
pub use layout::{Board, Placement, Stack, Strip};
pub use listing::{Cut, Listing};
pub use mode::Mode;
pub use offcut::{Lengths, Offcut};
pub use plan::Outlay;
pub use plate::Plate;
pub use position::{Position, Sides};
pub use prices::{Bound, Prices};
pub use refusal::Refusal;
pub use saw_text::saw_text;
pub use size::Size;
