//! The model as an MPS file in free form, for solvers that do not read LP files: the same rows and columns
//! under the same names, in the same order.

use crate::job::{Job, MOST_PIECES};
use crate::listing::{Cut, Listing};
use crate::model::{column, column_of_size, columns, head, rows};
use std::fmt::Write;

/// The MPS file of a job.
pub fn mps(job: &Job, listing: &Listing) -> String {
    let mut text = head(job, listing, "*");
    text.push_str("NAME one-cut\nROWS\n N cost\n");
    for row in rows(listing, job) {
        let _ = writeln!(text, " {} {row}", sense(&row));
    }
    text.push_str("COLUMNS\n MARKER 'MARKER' 'INTORG'\n");
    for (size, of_size) in job.sizes.iter().enumerate() {
        let column = column_of_size(size);
        let _ = writeln!(text, " {column} cost {}", of_size.cost);
        let _ = writeln!(text, " {column} boards_{size} -1");
    }
    for cut in &listing.cuts {
        for (row, coefficient) in entries(listing, cut) {
            let _ = writeln!(text, " {} {row} {coefficient}", column(cut));
        }
    }
    text.push_str(" MARKER 'MARKER' 'INTEND'\nRHS\n");
    for (item_type, item) in (1..).zip(&job.items) {
        let _ = writeln!(text, " RHS item_{item_type} {}", item.demand);
    }
    let _ = writeln!(text, " RHS pieces {MOST_PIECES}\nBOUNDS");
    // Without a bound of their own integer columns end at 1 for some readers.
    for column in columns(listing) {
        let _ = writeln!(text, " PL BND {column}");
    }
    text.push_str("ENDATA\n");
    text
}

/// How a row is limited: from above (L), to its value (E), or from below (G).
fn sense(row: &str) -> char {
    match row {
        "pieces" => 'L',
        _ if row.starts_with("boards_") => 'E',
        _ => 'G',
    }
}

/// The rows in which a cut stands, with its coefficients.
fn entries(listing: &Listing, cut: &Cut) -> Vec<(String, i64)> {
    let mut entries = vec![(format!("item_{}", cut.item), 1)];
    if cut.plate < listing.sizes {
        entries.push((format!("boards_{}", cut.plate), 1));
    }
    for plate in cut.kept() {
        entries.push((format!("plate_{plate}"), 1));
    }
    if listing.residuals().contains(&cut.plate) {
        entries.push((format!("plate_{}", cut.plate), -1));
    }
    entries.push(("pieces".to_string(), 1));
    entries
}

#[cfg(test)]
mod tests {
    use super::*;
    use crate::job::tests::two_sizes;

    #[test]
    fn two_sizes_have_this_model() {
        let job = two_sizes();
        let text = mps(&job, &Listing::of(&job).unwrap());
        for part in [
            "* One-cut model of a job in mode 2N: boards 9 by 7, 9 by 3, blade 0, 2 item types.\n",
            "ROWS\n N cost\n G item_1\n G item_2\n E boards_0\n E boards_1\n G plate_2\n G plate_3\n",
            " G plate_6\n L pieces\nCOLUMNS\n MARKER 'MARKER' 'INTORG'\n",
            "'INTORG'\n size_0 cost 3\n size_0 boards_0 -1\n size_1 cost 1\n size_1 boards_1 -1\n \
             x_0_1_0 item_1 1\n x_0_1_0 boards_0 1\n x_0_1_0 plate_2 1\n x_0_1_0 plate_3 1\n \
             x_0_1_0 pieces 1\n",
            " x_1_2_0 item_2 1\n x_1_2_0 boards_1 1\n x_1_2_0 plate_5 1\n x_1_2_0 pieces 1\n",
            " x_6_2_0 item_2 1\n x_6_2_0 plate_6 -1\n x_6_2_0 pieces 1\n MARKER",
            "RHS\n RHS item_1 2\n RHS item_2 3\n RHS pieces 4000\nBOUNDS\n PL BND size_0\n PL BND \
             size_1\n PL BND x_0_1_0\n",
        ] {
            assert!(text.contains(part), "{part}\n{text}");
        }
        assert!(text.ends_with(" PL BND x_6_2_0\nENDATA\n"));
    }
}
