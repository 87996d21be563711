//! Plates: which items may be cut from one, and what a cut leaves (document 01, "Plates and cuts";
//! document 02, Four).

use crate::mode::Mode;
use crate::position::Sides;

/// A plate type: width, height and stage.
#[derive(Debug, Clone, Copy, PartialEq, Eq, Hash)]
pub struct Plate {
    pub width: u16,
    pub height: u16,
    pub stage: u16,
}

/// What a cut leaves; what lies elsewhere is waste in every case.
#[derive(Debug, Clone, Copy, PartialEq, Eq)]
pub struct Residuals {
    pub top: Option<Plate>,
    pub right: Option<Plate>,
}

impl Plate {
    /// Width times height.
    pub fn area(&self) -> u64 {
        u64::from(self.width) * u64::from(self.height)
    }

    /// Whether an item that lies with these sides may be cut from this plate: it fits, and in 2E
    /// at stage 2 it is just as high, in 3E at stage 3 just as wide as the plate. The blade plays no
    /// part.
    pub fn admits(&self, mode: Mode, item: Sides) -> bool {
        let fits = item.width <= self.width && item.height <= self.height;
        let exact = match (mode, self.stage) {
            (Mode::TwoExact, 2) => item.height == self.height,
            (Mode::ThreeExact, 3) => item.width == self.width,
            _ => true,
        };
        fits && exact
    }

    /// Top and right residual of cutting the item from this plate with a blade of this width, kept
    /// or not. The side that the blade divides is what remains minus the blade, and 0 where the
    /// blade or less remains; the other side is whole.
    /// The item must be one that the plate admits.
    pub fn residuals(&self, mode: Mode, blade: u16, item: Sides) -> Residuals {
        let above = (self.height - item.height).saturating_sub(blade);
        let beside = (self.width - item.width).saturating_sub(blade);
        let plate = |width, height, stage| {
            Some(Plate {
                width,
                height,
                stage,
            })
        };
        let (top, right) = match (self.stage, mode.is_two_stage()) {
            (1, _) => (plate(self.width, above, 1), plate(beside, item.height, 2)),
            (2, true) => (None, plate(beside, item.height, 2)),
            (2, false) => (plate(item.width, above, 3), plate(beside, self.height, 2)),
            _ => (plate(item.width, above, 3), None),
        };
        Residuals { top, right }
    }
}
