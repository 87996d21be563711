//! Refusals: the numbers and places of the table "Where each number is given", and 19 and
//! 20 of document 02, One and Five.

/// A refusal number with the place that it names.
#[derive(Debug, Clone, Copy, PartialEq, Eq)]
pub struct Refusal {
    pub number: u32,
    pub place: u32,
}

/// Not of the form, kind or order, or missing.
pub const NOT_OF_THE_FORM: u32 = 1;
/// A value outside its limits.
pub const OUTSIDE_LIMITS: u32 = 2;
/// An item of which no permitted position fits any size.
pub const ITEM_TOO_LARGE: u32 = 3;
/// Demands that add up to more than 4,000.
pub const DEMANDS_TOO_HIGH: u32 = 4;
/// A buffer shorter than its full size.
pub const BUFFER_TOO_SHORT: u32 = 5;
/// A 2,049th plate type.
pub const TOO_MANY_PLATE_TYPES: u32 = 6;
/// An 8,193rd cut.
pub const TOO_MANY_CUTS: u32 = 7;
/// No such cut.
pub const NO_SUCH_CUT: u32 = 8;
/// A cut that does not come after the last.
pub const CUT_NOT_RISING: u32 = 9;
/// Counts above 4,000 in total, or more than 4,000 layout lines.
pub const TOTAL_TOO_HIGH: u32 = 10;
/// An item type cut, or laid, less often than demanded.
pub const TYPE_SHORT: u32 = 11;
/// A residual type cut more often than it arises.
pub const PLATE_TYPE_OVERDRAWN: u32 = 12;
/// Prices whose n or m is not the model's.
pub const PRICES_NOT_THE_MODELS: u32 = 13;
/// A cut over its limit of price.
pub const CUT_OVER_LIMIT: u32 = 14;
/// Board, strip, stack, place not the next in turn, or a size that is not the one of the board's
/// first line.
pub const NOT_NEXT_IN_TURN: u32 = 15;
/// A strip that breaks the stage rule.
pub const STAGE_RULE: u32 = 16;
/// A strip that reaches past the board.
pub const PAST_THE_BOARD: u32 = 17;
/// An x or y that is not the item's position.
pub const POSITION_WRONG: u32 = 18;
/// A turn of 1 for a square type or one without leave (document 02, One).
pub const TURNED_WITHOUT_LEAVE: u32 = 19;
/// A line of the plan that shows another width, height or stage than its plate has (document 02,
/// Five).
pub const OTHER_PLATE_SHOWN: u32 = 20;

impl Refusal {
    /// The refusal with this number, naming this place.
    pub fn new(number: u32, place: usize) -> Refusal {
        let place = u32::try_from(place).unwrap_or(u32::MAX);
        Refusal { number, place }
    }
}

/// Refuses with this number and place unless the condition holds.
pub fn ensure(condition: bool, number: u32, place: usize) -> Result<(), Refusal> {
    match condition {
        true => Ok(()),
        false => Err(Refusal::new(number, place)),
    }
}
