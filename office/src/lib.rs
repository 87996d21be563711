//! Office kit of the beam saw: it reads and writes the texts of docs/FORMAT.md, lists by the
//! reference's walk, finds offcuts by the reference's folding and unfolding, and knows of the saw
//! nothing else.

pub mod answer;
pub mod card;
pub mod check;
pub mod columns;
pub mod cut_list;
pub mod draw;
pub mod explain;
pub mod first;
pub mod help;
pub mod instances;
pub mod job;
pub mod labels;
pub mod list;
pub mod listing;
pub mod model;
pub mod mps;
pub mod patterns;
pub mod plan;
pub mod prices;
pub mod remains;
pub mod sawing;
pub mod solution;
pub mod split;
pub mod table;
pub mod totals;
pub mod words;
