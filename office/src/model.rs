//! The model: the one-cut model of a job as an LP file (CPLEX LP format).
//!
//! Minimise the cost of the boards opened, so that each item type is cut as often as demanded, no
//! residual type is cut more often than it arises, and at most 4,000 cuts are done: the integer
//! solutions are just the plans that the saw accepts. The boards of each size have a column of their
//! own, which a row makes the sum of the cuts on that size. Every column stands in the objective, one of a size
//! with its cost, one of a cut with 0. So columns come in the order of sizes and cuts, also for readers
//! that number columns as they meet them.

use crate::job::{Job, MOST_PIECES};
use crate::listing::{Cut, Listing, Plate};

/// Lines of the file are shorter than this; some readers stop at 255 bytes.
const LINE: usize = 100;

/// What the columns begin with: those of cuts, and those of sizes.
pub const CUT: &str = "x_";
pub const SIZE: &str = "size_";

/// The column of a cut: plate type, item type, turn.
pub fn column(cut: &Cut) -> String {
    format!("{CUT}{}_{}_{}", cut.plate, cut.item, cut.turn())
}

/// The column of a size: how many of its boards are opened.
pub fn column_of_size(size: usize) -> String {
    format!("{SIZE}{size}")
}

/// The names of all columns, in the order of the sizes and then of the cuts.
pub fn columns(listing: &Listing) -> Vec<String> {
    let sizes = (0..listing.sizes).map(column_of_size);
    sizes.chain(listing.cuts.iter().map(column)).collect()
}

/// The names of all rows: item types, boards of each size, residual types, pieces.
pub fn rows(listing: &Listing, job: &Job) -> Vec<String> {
    let items = (1..=job.items.len()).map(|item_type| format!("item_{item_type}"));
    let boards = (0..listing.sizes).map(|size| format!("boards_{size}"));
    let plates = listing.residuals().map(|plate| format!("plate_{plate}"));
    let pieces = ["pieces".to_string()];
    items.chain(boards).chain(plates).chain(pieces).collect()
}

/// The LP file of a job.
pub fn lp(job: &Job, listing: &Listing) -> String {
    let mut text = head(job, listing, "\\");
    text.push_str("Minimize\n");
    let costs = job.sizes.iter().map(|size| size.cost as i32);
    let none = listing.cuts.iter().map(|_| 0);
    let objective = costs.chain(none).zip(columns(listing));
    row(&mut text, "cost", objective, "");
    text.push_str("Subject To\n");
    let mut names = rows(listing, job).into_iter();
    let mut next = |terms: Vec<(i32, String)>, limit: &str| {
        let name = names.next().expect("each row has a name");
        row(&mut text, &name, terms.into_iter(), limit);
    };
    for (item_type, item) in (1..).zip(&job.items) {
        let cuts = listing.cuts.iter().filter(|cut| cut.item == item_type);
        let terms = cuts.map(|cut| (1, column(cut))).collect();
        next(terms, &format!(">= {}", item.demand));
    }
    for size in 0..listing.sizes {
        let cuts = listing.cuts.iter().filter(|cut| cut.plate == size);
        let terms = cuts.map(|cut| (1, column(cut)));
        next(terms.chain([(-1, column_of_size(size))]).collect(), "= 0");
    }
    for terms in balances(listing) {
        next(terms, ">= 0");
    }
    let all = listing.cuts.iter().map(|cut| (1, column(cut))).collect();
    next(all, &format!("<= {MOST_PIECES}"));
    text.push_str("Generals\n");
    wrapped(&mut text, columns(listing).into_iter());
    text.push_str("End\n");
    text
}

/// Comments that say what the columns and rows are, and which plate each number P is; each line begins
/// with the mark of a comment.
pub fn head(job: &Job, listing: &Listing, mark: &str) -> String {
    let plate = |(number, plate): (usize, &Plate)| match job.sizes.get(number) {
        Some(size) => format!(
            "{mark} Plate {number}: {}; board size {number}, cost {}.\n",
            plate.words(),
            size.cost
        ),
        None => format!("{mark} Plate {number}: {}.\n", plate.words()),
    };
    let plates: String = listing.plates.iter().enumerate().map(plate).collect();
    let said = format!(
        "{mark} One-cut model of a job in mode {}: {}, blade {}, {} item types.\n\
         {mark} {} residual types, {} cuts.\n\
         {mark} Column size_J: how many boards of size J are opened.\n\
         {mark} Column x_P_I_T: how often item type I is cut from plate type P, turned if T is 1.\n\
         {mark} Row item_I: item type I is cut as often as demanded.\n\
         {mark} Row boards_J: each cut from plate type J, which is size J, opens a board of that size.\n\
         {mark} Row plate_P: residual type P is cut at most as often as it arises.\n\
         {mark} Row pieces: a plan has at most 4,000 cuts.\n",
        job.mode(),
        boards(job),
        job.blade,
        job.items.len(),
        listing.residual_types(),
        listing.cuts.len()
    );
    said + &plates
}

/// The sizes in words: "board 9 by 7", or "boards 9 by 7, 9 by 3".
fn boards(job: &Job) -> String {
    let plural = if job.sizes.len() == 1 { "" } else { "s" };
    format!("board{plural} {}", job.sizes_words())
}

/// For each residual type the cuts that leave it (1) and the cuts on it (-1).
fn balances(listing: &Listing) -> Vec<Vec<(i32, String)>> {
    let mut terms = vec![Vec::new(); listing.plates.len()];
    for cut in &listing.cuts {
        for plate in cut.kept() {
            terms[plate].push((1, column(cut)));
        }
        terms[cut.plate].push((-1, column(cut)));
    }
    terms.split_off(listing.sizes)
}

/// Writes a row: its name, its terms, its limit.
fn row(text: &mut String, name: &str, terms: impl Iterator<Item = (i32, String)>, limit: &str) {
    let words = terms.map(|(coefficient, column)| match coefficient {
        1 => format!("+ {column}"),
        -1 => format!("- {column}"),
        cost => format!("+ {cost} {column}"),
    });
    let limit = (!limit.is_empty()).then(|| limit.to_string());
    let name = [format!("{name}:")];
    wrapped(text, name.into_iter().chain(words).chain(limit));
}

/// Writes words with a blank before each, in lines that are not too long.
fn wrapped(text: &mut String, words: impl Iterator<Item = String>) {
    let mut used = 0;
    for word in words {
        if used + word.len() + 1 > LINE {
            text.push('\n');
            used = 0;
        }
        text.push(' ');
        text.push_str(&word);
        used += word.len() + 1;
    }
    text.push('\n');
}

#[cfg(test)]
mod tests {
    use super::*;
    use crate::job::tests::{job, job_a, job_on, job_with_blade, job_with_leave, two_sizes};

    fn lp_of(job: &Job) -> String {
        lp(job, &Listing::of(job).unwrap())
    }

    #[test]
    fn job_a_has_this_model() {
        let text = lp_of(&job_a());
        let model = "\
Minimize
 cost: + size_0 + 0 x_0_1_0 + 0 x_0_2_0 + 0 x_1_2_0 + 0 x_2_2_0 + 0 x_3_1_0 + 0 x_3_2_0 + 0 x_4_2_0
 + 0 x_5_2_0
Subject To
 item_1: + x_0_1_0 + x_3_1_0 >= 2
 item_2: + x_0_2_0 + x_1_2_0 + x_2_2_0 + x_3_2_0 + x_4_2_0 + x_5_2_0 >= 3
 boards_0: + x_0_1_0 + x_0_2_0 - size_0 = 0
 plate_1: + x_0_1_0 - x_1_2_0 >= 0
 plate_2: + x_0_1_0 - x_2_2_0 + x_3_1_0 >= 0
 plate_3: + x_0_2_0 - x_3_1_0 - x_3_2_0 >= 0
 plate_4: + x_0_2_0 + x_1_2_0 + x_3_2_0 - x_4_2_0 >= 0
 plate_5: + x_4_2_0 - x_5_2_0 >= 0
 pieces: + x_0_1_0 + x_0_2_0 + x_1_2_0 + x_2_2_0 + x_3_1_0 + x_3_2_0 + x_4_2_0 + x_5_2_0 <= 4000
Generals
 size_0 x_0_1_0 x_0_2_0 x_1_2_0 x_2_2_0 x_3_1_0 x_3_2_0 x_4_2_0 x_5_2_0
End
";
        assert!(text.ends_with(model), "{text}");
        let head = "\\ One-cut model of a job in mode 2N: board 9 by 7, blade 0, 2 item types.\n";
        assert!(text.starts_with(head), "{text}");
        let plates = "\
\\ Plate 0: 9 by 7, stage 1; board size 0, cost 1.
\\ Plate 1: 9 by 3, stage 1.
\\ Plate 2: 4 by 4, stage 2.
\\ Plate 3: 9 by 4, stage 1.
\\ Plate 4: 6 by 3, stage 2.
\\ Plate 5: 3 by 3, stage 2.
Minimize
";
        assert!(text.contains(plates), "{text}");
    }

    #[test]
    fn two_sizes_have_this_model() {
        let text = lp_of(&two_sizes());
        let model = "\
Minimize
 cost: + 3 size_0 + size_1 + 0 x_0_1_0 + 0 x_0_2_0 + 0 x_1_2_0 + 0 x_2_2_0 + 0 x_3_2_0 + 0 x_4_1_0
 + 0 x_4_2_0 + 0 x_5_2_0 + 0 x_6_2_0
Subject To
 item_1: + x_0_1_0 + x_4_1_0 >= 2
 item_2: + x_0_2_0 + x_1_2_0 + x_2_2_0 + x_3_2_0 + x_4_2_0 + x_5_2_0 + x_6_2_0 >= 3
 boards_0: + x_0_1_0 + x_0_2_0 - size_0 = 0
 boards_1: + x_1_2_0 - size_1 = 0
 plate_2: + x_0_1_0 - x_2_2_0 >= 0
 plate_3: + x_0_1_0 - x_3_2_0 + x_4_1_0 >= 0
 plate_4: + x_0_2_0 - x_4_1_0 - x_4_2_0 >= 0
 plate_5: + x_0_2_0 + x_1_2_0 + x_2_2_0 + x_4_2_0 - x_5_2_0 >= 0
 plate_6: + x_5_2_0 - x_6_2_0 >= 0
";
        assert!(text.contains(model), "{text}");
        let head =
            "\\ One-cut model of a job in mode 2N: boards 9 by 7, 9 by 3, blade 0, 2 item types.\n";
        assert!(text.starts_with(head), "{text}");
        let plates = "\
\\ Plate 0: 9 by 7, stage 1; board size 0, cost 3.
\\ Plate 1: 9 by 3, stage 1; board size 1, cost 1.
\\ Plate 2: 9 by 3, stage 1.
";
        assert!(text.contains(plates), "{text}");
    }

    #[test]
    fn a_size_that_nothing_fits_has_no_boards() {
        let text = lp_of(&job_on("2N", &[[2, 2, 4], [3, 3, 5]], &[[3, 3, 1]]));
        let model = "\
Minimize
 cost: + 4 size_0 + 5 size_1 + 0 x_1_1_0
Subject To
 item_1: + x_1_1_0 >= 1
 boards_0: - size_0 = 0
 boards_1: + x_1_1_0 - size_1 = 0
 pieces: + x_1_1_0 <= 4000
";
        assert!(text.contains(model), "{text}");
    }

    #[test]
    fn job_a_with_a_blade_of_2_has_this_model() {
        let text = lp_of(&job_with_blade("2N", [9, 7], 2, &[[5, 4, 2], [3, 3, 3]]));
        let model = "\
Minimize
 cost: + size_0 + 0 x_0_1_0 + 0 x_0_2_0 + 0 x_1_2_0
Subject To
 item_1: + x_0_1_0 >= 2
 item_2: + x_0_2_0 + x_1_2_0 >= 3
 boards_0: + x_0_1_0 + x_0_2_0 - size_0 = 0
 plate_1: + x_0_2_0 - x_1_2_0 >= 0
 pieces: + x_0_1_0 + x_0_2_0 + x_1_2_0 <= 4000
";
        assert!(text.contains(model), "{text}");
        assert!(text.contains("board 9 by 7, blade 2, 2 item types"));
    }

    #[test]
    fn both_turns_of_a_type_stand_in_its_row() {
        let turning = job_with_leave("2N", [5, 4], &[[3, 4, 3, 1]]);
        let model = "\
Minimize
 cost: + size_0 + 0 x_0_1_0 + 0 x_0_1_1
Subject To
 item_1: + x_0_1_0 + x_0_1_1 >= 3
 boards_0: + x_0_1_0 + x_0_1_1 - size_0 = 0
 pieces: + x_0_1_0 + x_0_1_1 <= 4000
";
        let text = lp_of(&turning);
        assert!(text.contains(model), "{text}");
    }

    #[test]
    fn lines_are_short_and_rows_are_named() {
        let items: Vec<[usize; 3]> = (0..12).map(|i| [20 + i, 17 + i, 9]).collect();
        let job = job("2N", [120, 130], &items);
        let listing = Listing::of(&job).unwrap();
        let text = lp(&job, &listing);
        assert!(text.lines().all(|line| line.len() <= LINE + 1));
        for name in rows(&listing, &job) {
            assert!(text.contains(&format!(" {name}:")), "{name}");
        }
    }
}
