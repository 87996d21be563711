//! The items of a job that are still missing while a plan or a set of layouts grows.

use crate::random::Random;
use reference::Job;

/// How often each item type is still to be cut or laid.
pub struct Missing(Vec<u16>);

impl Missing {
    /// The demands of a job.
    pub fn of(job: &Job) -> Missing {
        Missing(job.items.iter().map(|item| item.demand).collect())
    }

    /// Whether an item type is missing.
    pub fn lacks(&self, item: u16) -> bool {
        self.0[usize::from(item) - 1] > 0
    }

    /// Whether no item type is missing.
    pub fn is_none(&self) -> bool {
        self.0.iter().all(|&count| count == 0)
    }

    /// A missing type, or any type if none is missing.
    pub fn pick(&self, random: &mut Random) -> u16 {
        let types = self.0.len() as u16;
        let missing: Vec<u16> = (1..=types).filter(|&item| self.lacks(item)).collect();
        match missing.is_empty() {
            true => random.between(1, types),
            false => random.pick(&missing),
        }
    }

    /// Takes one item, missing or not.
    pub fn take(&mut self, item: u16) {
        let count = &mut self.0[usize::from(item) - 1];
        *count = count.saturating_sub(1);
    }
}
