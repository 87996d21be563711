//! What a call answered: how often each number, and the largest values.

use crate::table::{Answer, Call};
use std::fmt;

/// One past the largest refusal number of a call; 20 is the saw text's alone.
const NUMBERS: usize = 20;

pub struct Tally {
    came: [usize; NUMBERS],
    largest: Vec<u32>,
}

impl Tally {
    pub fn new(call: &Call) -> Tally {
        Tally {
            came: [0; NUMBERS],
            largest: vec![0; call.largest.len()],
        }
    }

    pub fn add(&mut self, answer: &Answer) {
        self.came[answer[0] as usize] += 1;
        if answer[0] == 0 {
            for (largest, &value) in self.largest.iter_mut().zip(&answer[1..]) {
                *largest = value.max(*largest);
            }
        }
    }

    /// Whether each number that the call can give came, and no other, and its largest values.
    pub fn covers(&self, call: &Call) -> Result<(), String> {
        for (number, &came) in (0..).zip(&self.came) {
            let expected = number == 0 || call.refusals.contains(&number);
            if expected != (came > 0) {
                let what = if expected { "never came" } else { "came" };
                return Err(format!("{}: {number} {what}", call.name));
            }
        }
        match self.largest == call.largest {
            true => Ok(()),
            false => Err(format!(
                "{}: the largest values are {:?}, and not {:?}",
                call.name, self.largest, call.largest
            )),
        }
    }
}

impl fmt::Display for Tally {
    fn fmt(&self, f: &mut fmt::Formatter<'_>) -> fmt::Result {
        write!(f, "{} accepted, up to", self.came[0])?;
        for value in &self.largest {
            write!(f, " {value}")?;
        }
        write!(f, "; refused")?;
        let refusals = (1..).zip(&self.came[1..]).filter(|(_, &came)| came > 0);
        for (number, came) in refusals {
            write!(f, " {number}: {came}")?;
        }
        Ok(())
    }
}
