//! The listing: the walk that numbers plate types and cuts (document 01, "Plates and cuts";
//! document 02, One, Four and Six).

use crate::job::Job;
use crate::limits::{MOST_CUTS, MOST_PLATE_TYPES};
use crate::plate::Plate;
use crate::position::Position;
use crate::refusal::{ensure, Refusal, TOO_MANY_CUTS, TOO_MANY_PLATE_TYPES};
use std::collections::HashMap;
use std::ops::Range;

/// A cut: the plate type cut, the item type obtained and its turn, and the kept residuals.
#[derive(Debug, Clone, Copy, PartialEq, Eq)]
pub struct Cut {
    pub plate: u16,
    pub position: Position,
    pub top: Option<u16>,
    pub right: Option<u16>,
}

/// The most plate types (the sizes among them) and cuts that a walk may meet: those of document 01,
/// or lower ones.
#[derive(Debug, Clone, Copy, PartialEq, Eq)]
pub struct Limits {
    pub plate_types: usize,
    pub cuts: usize,
}

/// The limits that document 01 sets.
pub const FULL: Limits = Limits {
    plate_types: MOST_PLATE_TYPES,
    cuts: MOST_CUTS,
};

/// Plate types numbered from 0, the sizes first and then the residual types, and cuts numbered from
/// 1, both in the order of the walk.
#[derive(Debug, Clone, PartialEq, Eq)]
pub struct Listing {
    pub plates: Vec<Plate>,
    pub cuts: Vec<Cut>,
    /// How many of the plate types are sizes: the first ones.
    pub sizes: usize,
    /// For each plate type the index of its first cut, and one entry more: all cuts.
    /// The cuts on one plate type are consecutive, since the walk goes plate by plate; a size that
    /// no item fits has none.
    first: Vec<usize>,
}

impl Listing {
    /// Walks plate types in rising number, at each the item types in rising number, and at each
    /// of these the unturned position before the turned one. Each that may be cut is the next
    /// cut; then its top and its right, if kept and new, are the next plate types. Refuses a plate type too many with 6 and a cut too many with
    /// 7, whichever the walk meets first.
    pub fn walk(job: &Job, limits: Limits) -> Result<Listing, Refusal> {
        let mut met = MetPlates::new(job, limits.plate_types);
        let mut cuts = Vec::new();
        let mut first = Vec::new();
        let positions: Vec<Position> = job.positions().collect();
        while let Some(&plate) = met.plates.get(first.len()) {
            let number = first.len() as u16;
            first.push(cuts.len());
            for &position in &positions {
                let sides = job.sides(position);
                if !plate.admits(job.mode, sides) {
                    continue;
                }
                ensure(cuts.len() < limits.cuts, TOO_MANY_CUTS, 0)?;
                let left = plate.residuals(job.mode, job.blade, sides);
                let top = met.number(left.top)?;
                let right = met.number(left.right)?;
                cuts.push(Cut {
                    plate: number,
                    position,
                    top,
                    right,
                });
            }
        }
        first.push(cuts.len());
        let plates = met.plates;
        Ok(Listing {
            plates,
            cuts,
            sizes: job.sizes.len(),
            first,
        })
    }

    /// The residual types: plate types without the sizes. The first has the number of sizes as its
    /// own.
    pub fn residuals(&self) -> &[Plate] {
        &self.plates[self.sizes..]
    }

    /// The number of residual types.
    pub fn residual_types(&self) -> usize {
        self.residuals().len()
    }

    /// Whether a plate type is a size.
    pub fn is_size(&self, plate: u16) -> bool {
        usize::from(plate) < self.sizes
    }

    /// The indices (from 0) of the cuts on a plate type.
    pub fn cuts_on(&self, plate: u16) -> Range<usize> {
        let plate = usize::from(plate);
        self.first[plate]..self.first[plate + 1]
    }

    /// The index (from 0) of the cut of an item in this position from this plate type, if there
    /// is one.
    pub fn cut_of(&self, plate: u16, position: Position) -> Option<usize> {
        if usize::from(plate) >= self.plates.len() {
            return None;
        }
        let on = self.cuts_on(plate);
        let found = self.cuts[on.clone()].binary_search_by_key(&position, |cut| cut.position);
        found.ok().map(|offset| on.start + offset)
    }

    /// The plates as words: width, height, stage and cost of each, the cost 0 for a residual type.
    pub fn plate_words(&self, job: &Job) -> Vec<u16> {
        let costs = job.sizes.iter().map(|size| size.cost);
        let costs = costs.chain(std::iter::repeat(0));
        let record = |(plate, cost): (&Plate, u16)| [plate.width, plate.height, plate.stage, cost];
        self.plates.iter().zip(costs).flat_map(record).collect()
    }

    /// The cuts as words: plate, item, top and right of each, 0 for a residual not kept. The item
    /// word is twice the type plus the turn, also where no type has leave.
    pub fn cut_words(&self) -> Vec<u16> {
        let number = |residual: Option<u16>| residual.unwrap_or(0);
        let record = |cut: &Cut| {
            let item = cut.position.word();
            [cut.plate, item, number(cut.top), number(cut.right)]
        };
        self.cuts.iter().flat_map(record).collect()
    }
}

/// The plate types met so far, with the number of each residual type. A residual equal to a size is
/// a residual type all the same, so that none is sought among the sizes.
struct MetPlates<'a> {
    job: &'a Job,
    most: usize,
    plates: Vec<Plate>,
    numbers: HashMap<Plate, u16>,
}

impl<'a> MetPlates<'a> {
    /// The sizes alone, each with a number of its own, whether or not an item fits it and whether or
    /// not another is equal.
    fn new(job: &'a Job, most: usize) -> Self {
        MetPlates {
            job,
            most,
            plates: job.sizes.iter().map(|size| size.plate()).collect(),
            numbers: HashMap::new(),
        }
    }

    /// The number of a residual, a fresh one if it is new; none if it is not kept.
    fn number(&mut self, residual: Option<Plate>) -> Result<Option<u16>, Refusal> {
        let Some(plate) = residual else {
            return Ok(None);
        };
        if let Some(&number) = self.numbers.get(&plate) {
            return Ok(Some(number));
        }
        if !self.job.keeps(&plate) {
            return Ok(None);
        }
        ensure(self.plates.len() < self.most, TOO_MANY_PLATE_TYPES, 0)?;
        let number = self.plates.len() as u16;
        self.plates.push(plate);
        self.numbers.insert(plate, number);
        Ok(Some(number))
    }
}
