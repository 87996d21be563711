//! The listing: plate types and cuts of a job, numbered by the reference's walk (docs/FORMAT.md,
//! "Plate types and cuts").

use crate::job::{Item, Job, Size};
use reference::listing::FULL;
use reference::refusal::TOO_MANY_CUTS;
use reference::{Mode, Refusal};

/// A plate type: width, height and stage.
#[derive(Debug, Clone, Copy, PartialEq, Eq)]
pub struct Plate {
    pub width: usize,
    pub height: usize,
    pub stage: usize,
}

/// A cut: the plate type cut, the item type obtained, whether it is turned, and the residuals that
/// are kept.
#[derive(Debug, Clone, Copy, PartialEq, Eq)]
pub struct Cut {
    pub plate: usize,
    pub item: usize,
    pub turned: bool,
    pub top: Option<usize>,
    pub right: Option<usize>,
}

/// Plate types from 0, of which the first are the job's sizes, and cuts from 1; cut c stands at place
/// c - 1.
#[derive(Debug, Clone, PartialEq, Eq)]
pub struct Listing {
    pub plates: Vec<Plate>,
    pub cuts: Vec<Cut>,
    /// How many of the plate types are sizes.
    pub sizes: usize,
}

impl Plate {
    /// The plate in words, as "9 by 3, stage 1".
    pub fn words(&self) -> String {
        format!("{} by {}, stage {}", self.width, self.height, self.stage)
    }
}

impl From<reference::Plate> for Plate {
    fn from(plate: reference::Plate) -> Plate {
        Plate {
            width: plate.width.into(),
            height: plate.height.into(),
            stage: plate.stage.into(),
        }
    }
}

impl Cut {
    /// The turn as a number: 1 if turned, else 0.
    pub fn turn(&self) -> usize {
        self.turned.into()
    }

    /// The residuals that the cut leaves and that are kept.
    pub fn kept(&self) -> impl Iterator<Item = usize> {
        [self.top, self.right].into_iter().flatten()
    }
}

impl From<reference::Cut> for Cut {
    fn from(cut: reference::Cut) -> Cut {
        Cut {
            plate: cut.plate.into(),
            item: cut.position.item.into(),
            turned: cut.position.turned,
            top: cut.top.map(usize::from),
            right: cut.right.map(usize::from),
        }
    }
}

impl Listing {
    /// The listing of a job. An error says which limit it passes.
    pub fn of(job: &Job) -> Result<Listing, String> {
        let walked = reference::Listing::walk(&to_walk(job), FULL).map_err(too_large)?;
        Ok(Listing {
            plates: walked.plates.into_iter().map(Plate::from).collect(),
            cuts: walked.cuts.into_iter().map(Cut::from).collect(),
            sizes: walked.sizes,
        })
    }

    /// The number of residual types: plate types without the sizes.
    pub fn residual_types(&self) -> usize {
        self.plates.len() - self.sizes
    }

    /// The numbers of the residual types, from the number of sizes on.
    pub fn residuals(&self) -> std::ops::Range<usize> {
        self.sizes..self.plates.len()
    }

    /// The cut of this item type and turn from this plate type, from 1, if there is one.
    pub fn cut_of(&self, plate: usize, item: usize, turned: bool) -> Option<usize> {
        let key = |cut: &Cut| (cut.plate, cut.item, cut.turned);
        let found = self.cuts.binary_search_by_key(&(plate, item, turned), key);
        found.ok().map(|place| place + 1)
    }
}

/// The job as the reference walks it.
pub fn to_walk(job: &Job) -> reference::Job {
    let item = |item: &Item| reference::Item {
        width: word(item.width),
        height: word(item.height),
        demand: word(item.demand),
        leave: item.leave,
    };
    let size = |size: &Size| reference::Size {
        width: word(size.width),
        height: word(size.height),
        cost: word(size.cost),
    };
    let mode = Mode::from_numbers(word(job.stages).into(), job.exact.into());
    reference::Job {
        mode: mode.expect("a job has two or three stages"),
        sizes: job.sizes.iter().map(size).collect(),
        blade: word(job.blade),
        items: job.items.iter().map(item).collect(),
    }
}

/// A number of a job as a word.
fn word(number: usize) -> u16 {
    u16::try_from(number).expect("a job's numbers are within their limits")
}

/// What to say of a job whose walk is refused.
pub fn too_large(refusal: Refusal) -> String {
    let most = match refusal.number {
        TOO_MANY_CUTS => "8,192 cuts",
        _ => "2,048 plate types",
    };
    format!(
        "the job has more than {most}, and the saw refuses it with {}; \
         take fewer item types in one job, or a two-stage or exact mode: \"office split JOB\" says which",
        refusal.number
    )
}

#[cfg(test)]
mod tests {
    use super::*;
    use crate::job::tests::{example, job, job_a, job_with_blade, job_with_leave, two_sizes};

    fn sizes(job: &Job) -> (usize, usize) {
        let listing = Listing::of(job).unwrap();
        (listing.residual_types(), listing.cuts.len())
    }

    #[test]
    fn jobs_have_the_sizes_that_are_known() {
        assert_eq!(sizes(&job_a()), (5, 8));
        assert_eq!(sizes(&example()), (6, 10));
        assert_eq!(sizes(&job("2E", [9, 7], &[[5, 4, 2], [3, 3, 3]])), (4, 7));
        assert_eq!(sizes(&job("3N", [5, 5], &[[3, 5, 1], [2, 2, 2]])), (4, 6));
        assert_eq!(sizes(&job("2N", [9, 7], &[[9, 7, 1]])), (0, 1));
        assert_eq!(sizes(&two_sizes()), (5, 9));
        assert_eq!(Listing::of(&two_sizes()).unwrap().residuals(), 2..7);
    }

    #[test]
    fn a_blade_leaves_fewer_residuals() {
        let with = |blade| {
            sizes(&job_with_blade(
                "2N",
                [9, 7],
                blade,
                &[[5, 4, 2], [3, 3, 3]],
            ))
        };
        let expected = [(5, 8), (3, 5), (1, 3), (1, 3), (0, 2)];
        assert_eq!([0, 1, 2, 3, 4].map(with), expected);
    }

    /// A listing as docs/FORMAT.md prints it: plates, then plate, item, top and right of each cut.
    fn printed(job: &Job) -> (Vec<String>, Vec<[usize; 4]>) {
        let listing = Listing::of(job).unwrap();
        let number = |residual: Option<usize>| residual.unwrap_or(0);
        let cut = |cut: &Cut| [cut.plate, cut.item, number(cut.top), number(cut.right)];
        (
            listing.plates.iter().map(Plate::words).collect(),
            listing.cuts.iter().map(cut).collect(),
        )
    }

    #[test]
    fn job_a_has_the_listing_of_the_handbook() {
        let (plates, cuts) = printed(&job_a());
        let expected = [
            "9 by 7, stage 1",
            "9 by 3, stage 1",
            "4 by 4, stage 2",
            "9 by 4, stage 1",
            "6 by 3, stage 2",
            "3 by 3, stage 2",
        ];
        assert_eq!(plates, expected);
        let expected = [
            [0, 1, 1, 2],
            [0, 2, 3, 4],
            [1, 2, 0, 4],
            [2, 2, 0, 0],
            [3, 1, 0, 2],
            [3, 2, 0, 4],
            [4, 2, 0, 5],
            [5, 2, 0, 0],
        ];
        assert_eq!(cuts, expected);
    }

    #[test]
    fn job_b_has_the_listing_of_the_handbook() {
        let (plates, cuts) = printed(&job("3N", [5, 5], &[[3, 5, 1], [2, 2, 2]]));
        let expected = [
            "5 by 5, stage 1",
            "2 by 5, stage 2",
            "5 by 3, stage 1",
            "3 by 2, stage 2",
            "2 by 3, stage 3",
        ];
        assert_eq!(plates, expected);
        let expected = [
            [0, 1, 0, 1],
            [0, 2, 2, 3],
            [1, 2, 4, 0],
            [2, 2, 0, 3],
            [3, 2, 0, 0],
            [4, 2, 0, 0],
        ];
        assert_eq!(cuts, expected);
    }

    #[test]
    fn cuts_are_found_by_plate_item_and_turn() {
        let listing = Listing::of(&job_a()).unwrap();
        assert_eq!(listing.cut_of(0, 1, false), Some(1));
        assert_eq!(listing.cut_of(4, 2, false), Some(7));
        assert_eq!(listing.cut_of(1, 1, false), None);
        assert_eq!(listing.cut_of(6, 1, false), None);
        assert_eq!(listing.cut_of(0, 1, true), None);
        let turning = job_with_leave("2N", [9, 7], &[[5, 4, 2, 1], [3, 3, 3, 1]]);
        let listing = Listing::of(&turning).unwrap();
        assert_eq!((listing.residual_types(), listing.cuts.len()), (6, 12));
        assert_eq!(listing.cut_of(0, 1, true), Some(2));
        assert_eq!(listing.cut_of(0, 2, true), None);
    }

    #[test]
    fn jobs_past_the_limits_are_told() {
        let many: Vec<[usize; 3]> = (0..40).map(|i| [101 + 7 * i, 103 + 11 * i, 1]).collect();
        for (items, told) in [
            (&many[..], "with 7"),
            (&[[71, 83, 1], [97, 61, 1]], "with 6"),
        ] {
            let fault = Listing::of(&job("3N", [10_000, 10_000], items)).unwrap_err();
            assert!(fault.contains(told), "{fault}");
        }
    }
}
