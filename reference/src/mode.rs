//! The four stage modes of document 01, "The job".

/// Two or three stages, exact or non-exact.
#[derive(Debug, Clone, Copy, PartialEq, Eq, Hash)]
pub enum Mode {
    /// 2E
    TwoExact,
    /// 2N
    TwoNonExact,
    /// 3E
    ThreeExact,
    /// 3N
    ThreeNonExact,
}

impl Mode {
    /// All modes, in the order in which document 01 names them.
    pub const ALL: [Mode; 4] = [
        Mode::TwoExact,
        Mode::TwoNonExact,
        Mode::ThreeExact,
        Mode::ThreeNonExact,
    ];

    /// The mode of the two numbers of line 1: stages (2 or 3) and exact (1 or 0).
    pub fn from_numbers(stages: u32, exact: u32) -> Option<Mode> {
        match (stages, exact) {
            (2, 1) => Some(Mode::TwoExact),
            (2, 0) => Some(Mode::TwoNonExact),
            (3, 1) => Some(Mode::ThreeExact),
            (3, 0) => Some(Mode::ThreeNonExact),
            _ => None,
        }
    }

    /// The two numbers of line 1, which are also the first two job words.
    pub fn numbers(self) -> [u16; 2] {
        let stages = if self.is_two_stage() { 2 } else { 3 };
        [stages, u16::from(self.is_exact())]
    }

    /// The name that document 01 gives the mode.
    pub fn name(self) -> &'static str {
        match self {
            Mode::TwoExact => "2E",
            Mode::TwoNonExact => "2N",
            Mode::ThreeExact => "3E",
            Mode::ThreeNonExact => "3N",
        }
    }

    /// Whether the mode has two stages; otherwise it has three.
    pub fn is_two_stage(self) -> bool {
        matches!(self, Mode::TwoExact | Mode::TwoNonExact)
    }

    /// Whether the mode is exact.
    pub fn is_exact(self) -> bool {
        matches!(self, Mode::TwoExact | Mode::ThreeExact)
    }
}
