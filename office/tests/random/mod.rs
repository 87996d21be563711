//! Random numbers, the same ones for the same seed, and random jobs; what tests of random jobs need besides.

#![allow(dead_code)]

use office::job::{Item, Job, Size};
use office::listing::{Cut, Listing};

/// A small source of random numbers.
pub struct Random(pub u64);

impl Random {
    /// A number below the end, which is at least 1.
    pub fn below(&mut self, end: usize) -> usize {
        self.0 = self
            .0
            .wrapping_mul(6364136223846793005)
            .wrapping_add(1442695040888963407);
        ((self.0 >> 33) as usize) % end
    }

    /// A number from the least to the most.
    pub fn between(&mut self, least: usize, most: usize) -> usize {
        least + self.below(most - least + 1)
    }

    /// An item type that fits a board of these sides, turned perhaps.
    fn item(&mut self, [width, height]: [usize; 2]) -> Item {
        let item = Item {
            width: self.between(width.div_ceil(4), width),
            height: self.between(height.div_ceil(4), height),
            demand: self.between(1, 9),
            leave: self.below(2) == 1,
        };
        let [width, height] = item.sides(item.leave && self.below(2) == 1);
        Item {
            width,
            height,
            ..item
        }
    }

    /// A small job in any mode, on one to six sizes, with a blade or without.
    pub fn job(&mut self) -> Job {
        let [width, height] = [self.between(4, 24), self.between(4, 24)];
        let items: Vec<Item> = (0..4).map(|_| self.item([width, height])).collect();
        let items = items[..self.between(1, 4)].to_vec();
        let mut sizes = vec![Size {
            width,
            height,
            cost: self.between(1, 4),
        }];
        for _ in 0..[0, 0, 1, 2, 5][self.below(5)] {
            let size = Size {
                width: self.between(width / 2 + 1, width),
                height: self.between(height / 2 + 1, height),
                cost: [1, 2, 50, 999][self.below(4)],
            };
            sizes.insert(self.below(sizes.len() + 1), size);
        }
        Job {
            stages: self.between(2, 3),
            exact: self.below(2) == 1,
            sizes,
            blade: [0, 0, 1, 2, 3, 20][self.below(6)],
            items,
            names: Vec::new(),
        }
    }
}

/// The plan that cuts every item from a board of its own: of its cuts on sizes the last.
pub fn one_each(job: &Job, listing: &Listing) -> Vec<usize> {
    let mut counts = vec![0; listing.cuts.len()];
    for item in 1..=job.items.len() {
        let on_size = |cut: &Cut| cut.plate < listing.sizes && cut.item == item;
        let last = listing.cuts.iter().rposition(on_size);
        counts[last.expect("each item fits some size")] = job.item(item).demand;
    }
    counts
}

/// The saw's answer to a text.
pub fn saw(text: &str) -> String {
    String::from_utf8(reference::saw_text(text.as_bytes())).unwrap()
}
