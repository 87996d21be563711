//! The listing of a job for people and for solvers: plate types and cuts with their numbers.

use crate::job::Job;
use crate::listing::{Cut, Listing};
use crate::table::Table;

/// The plate types: number, sides, stage, the cost of a size, and the first and the last cut on it.
fn plates(job: &Job, listing: &Listing) -> Table {
    let mut table = Table::new(&[
        "plate",
        "width",
        "height",
        "stage",
        "cost",
        "first cut",
        "last cut",
    ]);
    for (number, plate) in listing.plates.iter().enumerate() {
        let cost = job.sizes.get(number).map(|size| size.cost);
        let on = |cut: &Cut| cut.plate == number;
        let first = listing.cuts.iter().position(on).map(|place| place + 1);
        let last = listing.cuts.iter().rposition(on).map(|place| place + 1);
        let shown = |number: Option<usize>| number.map_or(String::new(), |it| it.to_string());
        let [width, height, stage] = [plate.width, plate.height, plate.stage];
        let numbers = [
            Some(number),
            Some(width),
            Some(height),
            Some(stage),
            cost,
            first,
            last,
        ];
        table.row(numbers.map(shown));
    }
    table
}

/// The cuts: number, plate type, item type and turn, the item's sides as it lies, and the residuals
/// kept, 0 where there is none.
fn cuts(job: &Job, listing: &Listing) -> Table {
    let mut table = Table::new(&[
        "cut", "plate", "item", "turn", "width", "height", "top", "right",
    ]);
    for (number, cut) in (1..).zip(&listing.cuts) {
        let [width, height] = job.sides(cut.item, cut.turned);
        let [top, right] = [cut.top, cut.right].map(|kept| kept.unwrap_or(0));
        let numbers = [
            number,
            cut.plate,
            cut.item,
            cut.turn(),
            width,
            height,
            top,
            right,
        ];
        table.row(numbers);
    }
    table
}

/// The plate types as CSV.
pub fn csv_of_plates(job: &Job, listing: &Listing) -> String {
    plates(job, listing).csv()
}

/// The cuts as CSV.
pub fn csv_of_cuts(job: &Job, listing: &Listing) -> String {
    cuts(job, listing).csv()
}

/// The listing as text: both tables.
pub fn text(job: &Job, listing: &Listing) -> String {
    format!(
        "mode {}, blade {} mm: {} board size(s), {} residual type(s), {} cut(s)\n\n{}\n{}",
        job.mode(),
        job.blade,
        listing.sizes,
        listing.residual_types(),
        listing.cuts.len(),
        plates(job, listing).text(),
        cuts(job, listing).text()
    )
}

#[cfg(test)]
mod tests {
    use super::*;
    use crate::job::tests::{job_a, job_on, job_with_leave};

    fn listed(job: &Job) -> Listing {
        Listing::of(job).unwrap()
    }

    #[test]
    fn job_a_is_listed() {
        let expected = "\
mode 2N, blade 0 mm: 1 board size(s), 5 residual type(s), 8 cut(s)

plate  width  height  stage  cost  first cut  last cut
    0      9       7      1     1          1         2
    1      9       3      1                3         3
    2      4       4      2                4         4
    3      9       4      1                5         6
    4      6       3      2                7         7
    5      3       3      2                8         8

cut  plate  item  turn  width  height  top  right
  1      0     1     0      5       4    1      2
  2      0     2     0      3       3    3      4
  3      1     2     0      3       3    0      4
  4      2     2     0      3       3    0      0
  5      3     1     0      5       4    0      2
  6      3     2     0      3       3    0      4
  7      4     2     0      3       3    0      5
  8      5     2     0      3       3    0      0
";
        assert_eq!(text(&job_a(), &listed(&job_a())), expected);
    }

    #[test]
    fn a_size_that_no_item_fits_has_no_cuts_and_turned_items_lie_turned() {
        let job = job_on("2N", &[[9, 7, 3], [1, 1, 1]], &[[5, 4, 2]]);
        let plates = csv_of_plates(&job, &listed(&job));
        assert!(plates.starts_with(
            "plate,width,height,stage,cost,first cut,last cut\n0,9,7,1,3,1,1\n1,1,1,1,1,,\n"
        ));
        let job = job_with_leave("2N", [9, 7], &[[5, 4, 2, 1]]);
        let cuts = csv_of_cuts(&job, &listed(&job));
        assert!(cuts.contains("\n2,0,1,1,4,5,0,"), "{cuts}");
    }
}
