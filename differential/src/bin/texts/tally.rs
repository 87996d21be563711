//! What was answered: how often each number, and the longest answer.

use inputs::text::refusal_in;
use inputs::Text;
use std::fmt;

/// One past the largest refusal number.
const NUMBERS: usize = 21;

pub struct Tally {
    came: [usize; NUMBERS],
    longest: usize,
}

impl Tally {
    pub fn new() -> Tally {
        Tally {
            came: [0; NUMBERS],
            longest: 0,
        }
    }

    pub fn add(&mut self, answer: &[u8]) {
        let number = refusal_in(answer).unwrap_or(0);
        self.came[number as usize] += 1;
        self.longest = self.longest.max(answer.len());
    }

    /// Whether each number that a text can be given came, and no other, and an answer of the full length.
    pub fn covers(&self, kind: Text) -> Result<(), String> {
        for (number, &came) in (0..).zip(&self.came) {
            let expected = number == 0 || kind.refusals().contains(&number);
            if expected != (came > 0) {
                let what = if expected { "never came" } else { "came" };
                return Err(format!("{number} {what}"));
            }
        }
        match self.longest == kind.longest() {
            true => Ok(()),
            false => Err(format!("the longest answer has {} bytes", self.longest)),
        }
    }
}

impl fmt::Display for Tally {
    fn fmt(&self, f: &mut fmt::Formatter<'_>) -> fmt::Result {
        write!(
            f,
            "{} accepted, up to {} bytes; refused",
            self.came[0], self.longest
        )?;
        let refusals = (1..).zip(&self.came[1..]).filter(|(_, &came)| came > 0);
        for (number, came) in refusals {
            write!(f, " {number}: {came}")?;
        }
        Ok(())
    }
}
