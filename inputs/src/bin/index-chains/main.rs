//! How long the chains of the listing's index are, by the function that gives the bucket of a plate type: each function is
//! tried on jobs that are hard on it. Of each family of jobs it prints, for each function, the most plate types that one
//! search looks at, and the greatest mean over the searches of one job.
//!
//! usage: index-chains [JOBS]          (300 jobs of each family and mode, if not given)

use inputs::Random;
use reference::job::{Head, Item, Job};
use reference::listing::{Listing, FULL};
use reference::plate::Plate;
use reference::size::Size;
use std::env;

/// A function that gives the bucket: (width + height · `by_height` + stage · `by_stage`) modulo `buckets`.
struct Function {
    buckets: usize,
    by_height: usize,
    by_stage: usize,
}

const FUNCTIONS: [Function; 6] = [
    Function { buckets: 4_096, by_height: 61, by_stage: 1_021 },
    Function { buckets: 4_093, by_height: 61, by_stage: 1_021 },
    Function { buckets: 16_384, by_height: 61, by_stage: 1_021 },
    Function { buckets: 10_007, by_height: 61, by_stage: 1_021 },
    Function { buckets: 10_007, by_height: 101, by_stage: 3_121 },
    Function { buckets: 10_007, by_height: 6_185, by_stage: 3_121 },
];

impl Function {
    fn bucket(&self, plate: &Plate) -> usize {
        let sum = usize::from(plate.width)
            + self.by_height * usize::from(plate.height)
            + self.by_stage * usize::from(plate.stage);
        sum % self.buckets
    }

    /// Of the searches of a listing the most plate types that one looks at, and how many they look at in the mean.
    fn looks(&self, listing: &Listing) -> (usize, f64) {
        let mut chains: Vec<Vec<u16>> = vec![Vec::new(); self.buckets];
        let (mut most, mut all, mut searches) = (0, 0, 0);
        let mut met = listing.sizes;
        for number in listing.cuts.iter().flat_map(|cut| [cut.top, cut.right]).flatten() {
            let chain = &mut chains[self.bucket(&listing.plates[usize::from(number)])];
            let place = chain.iter().rev().position(|&other| other == number);
            let looks = place.map_or(chain.len(), |place| place + 1);
            if usize::from(number) == met {
                chain.push(number);
                met += 1;
            }
            most = most.max(looks);
            all += looks;
            searches += 1;
        }
        (most, all as f64 / f64::from(searches.max(1)))
    }
}

/// The sides of a family: what they are multiples of, which one is fixed, and how the heights lie.
#[derive(Clone, Copy)]
struct Family {
    name: &'static str,
    unit: u16,
    fixed: Fixed,
    sizes: usize,
    leave: bool,
}

#[derive(Clone, Copy, PartialEq)]
enum Fixed {
    Neither,
    Width,
    Height,
    /// Heights at a distance that the function takes to a small one.
    Near(u16),
}

const fn family(name: &'static str, unit: u16, fixed: Fixed) -> Family {
    Family { name, unit, fixed, sizes: 1, leave: false }
}

const FAMILIES: [Family; 14] = [
    family("any sides", 1, Fixed::Neither),
    family("multiples of 2", 2, Fixed::Neither),
    family("multiples of 8", 8, Fixed::Neither),
    family("multiples of 32", 32, Fixed::Neither),
    family("multiples of 64", 64, Fixed::Neither),
    family("multiples of 128", 128, Fixed::Neither),
    family("multiples of 61", 61, Fixed::Neither),
    family("one width", 1, Fixed::Width),
    family("one height", 1, Fixed::Height),
    Family { sizes: 6, ..family("six equal sizes", 1, Fixed::Neither) },
    Family { leave: true, ..family("turned", 1, Fixed::Neither) },
    Family { leave: true, ..family("turned, multiples of 16", 16, Fixed::Neither) },
    family("heights 164 apart, 61 times which is near 10,007", 1, Fixed::Near(164)),
    family("heights 144 apart, 6,185 times which is near 10,007", 1, Fixed::Near(144)),
];

/// A job of a family, if its listing is great and within the limits.
fn listed(family: Family, mode: u32, random: &mut Random) -> Option<Listing> {
    let unit = family.unit;
    let steps = (10_000 / unit).min(3_000).max(12);
    let side = random.between(steps / 3, steps) * unit;
    let types = random.between(4, 24);
    let greatest = (side / unit / 2).max(2);
    let mut item = |number: u16| {
        let mut part = || random.between((greatest / 6).max(1), greatest) * unit;
        let (width, height) = (part(), part());
        let (width, height) = match family.fixed {
            Fixed::Neither => (width, height),
            Fixed::Width => (side / 7, height),
            Fixed::Height => (width, side / 7),
            Fixed::Near(apart) => (width, (apart * number).min(side)),
        };
        Item { width, height, demand: 1, leave: family.leave }
    };
    let items: Vec<Item> = (1..=types).map(&mut item).collect();
    let size = Size { width: side, height: side, cost: 1 };
    let sizes = vec![size; family.sizes];
    let numbers = [2 + mode / 2, mode % 2, family.sizes as u32, u32::from(types), 0];
    let job = Job::new(Head::from_numbers(numbers)?, sizes, items);
    job.admit().ok()?;
    let listing = Listing::walk(&job, FULL).ok()?;
    (listing.residual_types() >= 300).then_some(listing)
}

fn main() {
    let jobs = env::args().nth(1).map_or(300, |number| number.parse().expect("a number of jobs"));
    let mut random = Random::new(1);
    println!("| jobs | listings | {} |", FUNCTIONS.map(|f| format!("{} {}", f.buckets, f.by_height)).join(" | "));
    for family in FAMILIES {
        let mut found = 0;
        let mut worst = [(0, 0.0_f64); FUNCTIONS.len()];
        for job in 0..4 * jobs {
            let Some(listing) = listed(family, job % 4, &mut random) else {
                continue;
            };
            found += 1;
            for (worst, function) in worst.iter_mut().zip(&FUNCTIONS) {
                let (most, mean) = function.looks(&listing);
                *worst = (worst.0.max(most), worst.1.max(mean));
            }
        }
        let worst = worst.map(|(most, mean)| format!("{most} ({mean:.2})"));
        println!("| {} | {found} | {} |", family.name, worst.join(" | "));
    }
}
