//! The limits of document 01, each with the section that sets it, and of document 02, One, Two,
//! Four and Six.

use std::ops::RangeInclusive;

/// Sides of boards and items in millimetres ("The job").
pub const SIDE: RangeInclusive<u32> = 1..=10_000;

/// Number of item types of a job ("The job"), and the n of a line of kind 4 ("Texts").
pub const ITEM_TYPES: RangeInclusive<u32> = 1..=40;

/// Demand of one item type ("The job").
pub const DEMAND: RangeInclusive<u32> = 1..=4_000;

/// Demands of a job, counts of a plan and lines of a set of layouts, all together
/// ("The job", "Plan", "Where each number is given").
pub const MOST_PIECES: u32 = 4_000;

/// Plate types of a listing, the board sizes among them ("Plates and cuts"; document 02, Six).
pub const MOST_PLATE_TYPES: usize = 2_048;

/// Cuts of a listing ("Plates and cuts").
pub const MOST_CUTS: usize = 8_192;

/// Denominator of a price list ("Prices").
pub const DENOMINATOR: RangeInclusive<u32> = 1..=9_999;

/// Price of an item type or a residual type ("Prices").
pub const PRICE: RangeInclusive<u32> = 0..=9_999;

/// Plate number on a line of kind 3 ("Texts").
pub const PLATE_NUMBER: RangeInclusive<u32> = 0..=2_047;

/// Count on a line of kind 3 ("Texts").
pub const COUNT: RangeInclusive<u32> = 1..=4_000;

/// Number of residual types on a line of kind 4 ("Texts").
pub const RESIDUAL_TYPES: RangeInclusive<u32> = 0..=2_047;

/// Board, strip, stack and place of a layout line ("Texts").
pub const RUNNING: RangeInclusive<u32> = 1..=4_000;

/// x and y of a layout line ("Texts").
pub const COORDINATE: RangeInclusive<u32> = 0..=10_000;

/// Leave to turn an item type, and the turn of a cut or of a layout line (document 02, One).
pub const TURN: RangeInclusive<u32> = 0..=1;

/// The two lengths from which an offcut is usable (document 02, Two).
pub const LENGTH: RangeInclusive<u32> = 1..=10_000;

/// Width of the blade in millimetres (document 02, Four).
pub const BLADE: RangeInclusive<u32> = 0..=20;

/// Number of board sizes of a job, t (document 02, Six).
pub const SIZES: RangeInclusive<u32> = 1..=6;

/// Cost of a board of a size (document 02, Six).
pub const COST: RangeInclusive<u32> = 1..=999;

/// The line of a text that is refused whatever it holds ("Texts").
pub const FORBIDDEN_LINE: usize = 100_000;
