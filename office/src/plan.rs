//! Plans: counts of cuts, their test, and their lines of kind 3, which show the plates of the model.

use crate::columns::{line, said, thousands, whole_numbers};
use crate::job::{in_line, is_table, Job, MOST_PIECES};
use crate::listing::{Listing, Plate};
use crate::model::column;
use crate::solution::Solution;

/// How far from a whole number a solver's value may lie.
const TOLERANCE: f64 = 1e-3;

/// The counts of a solution, one for each cut, rounded to whole numbers, none of them above 4,000.
pub fn counts(listing: &Listing, solution: &Solution) -> Result<Vec<usize>, String> {
    let mut counts = Vec::new();
    for cut in &listing.cuts {
        let name = column(cut);
        let value = solution.values.get(&name).copied().unwrap_or(0.0);
        let rounded = value.round();
        if rounded > MOST_PIECES as f64 {
            return Err(format!(
                "{name} is {}; a plan has at most {} cuts",
                shown(value),
                thousands(MOST_PIECES)
            ));
        }
        if (value - rounded).abs() > TOLERANCE || rounded < 0.0 {
            return Err(format!(
                "{name} is {value}, not a whole number: \
                 a plan needs the integer solution, not the relaxation's"
            ));
        }
        counts.push(rounded as usize);
    }
    Ok(counts)
}

/// A solver's value: in full, or with its power of ten where that would be many digits.
fn shown(value: f64) -> String {
    match value.abs() < 1e9 {
        true => value.to_string(),
        false => format!("{value:e}"),
    }
}

/// An error unless the saw accepts the counts: at most 4,000 cuts, each demand reached, no residual
/// type cut more often than it arises.
pub fn accepted(job: &Job, listing: &Listing, counts: &[usize]) -> Result<(), String> {
    let total: usize = counts.iter().sum();
    if total > MOST_PIECES {
        return Err(format!(
            "the plan has {} cuts; at most 4,000 are allowed",
            thousands(total)
        ));
    }
    for (item_type, item) in (1..).zip(&job.items) {
        let cut = cut_of_type(listing, counts, item_type);
        if cut < item.demand {
            return Err(format!(
                "item type {item_type} is cut {cut} times; {} are demanded",
                item.demand
            ));
        }
    }
    for plate in listing.residuals() {
        let [on, arises] = balance(listing, counts, plate);
        if on > arises {
            return Err(format!(
                "plate type {plate} ({}) is cut {on} times, but arises {arises} times",
                listing.plates[plate].words()
            ));
        }
    }
    Ok(())
}

/// How often an item type is cut, in both turns together.
pub fn cut_of_type(listing: &Listing, counts: &[usize], item_type: usize) -> usize {
    let cuts = listing.cuts.iter().zip(counts);
    cuts.filter(|(cut, _)| cut.item == item_type)
        .map(|(_, &count)| count)
        .sum()
}

/// How often a residual type is cut, and how often it arises.
pub fn balance(listing: &Listing, counts: &[usize], plate: usize) -> [usize; 2] {
    let mut balance = [0, 0];
    for (cut, count) in listing.cuts.iter().zip(counts) {
        if cut.plate == plate {
            balance[0] += count;
        }
        if cut.kept().any(|kept| kept == plate) {
            balance[1] += count;
        }
    }
    balance
}

/// Whether lines of kind 3 follow a job in a text; a table has none.
pub fn has_lines(text: &str, job: &Job) -> bool {
    let of_text = said(text).skip(job.lines());
    let mut kinds = of_text.map(|(_, line)| line.split_ascii_whitespace().next());
    !is_table(text) && kinds.any(|kind| kind == Some("3"))
}

/// The counts that the lines of kind 3 of a saw text give; other lines after the job are left alone. An error
/// names the line, as one that names a cut again.
pub fn of_text(text: &str, job: &Job, listing: &Listing) -> Result<Vec<usize>, String> {
    let mut counts = vec![0; listing.cuts.len()];
    let mut lines = vec![None; listing.cuts.len()];
    for (number, line) in said(text).skip(job.lines()) {
        let all = whole_numbers(line, number)?;
        if all.first() != Some(&3) {
            continue;
        }
        let (place, count) = of_line(listing, &all).map_err(in_line(number))?;
        if let Some(before) = lines[place].replace(number) {
            return Err(format!(
                "line {number}: {} has a count on line {before} already; the saw refuses that with 9",
                column(&listing.cuts[place])
            ));
        }
        counts[place] = count;
    }
    Ok(counts)
}

/// The place of the cut that a line 3 names, and its count.
fn of_line(listing: &Listing, numbers: &[usize]) -> Result<(usize, usize), String> {
    let [3, plate, item, count, width, height, stage, turn @ (0 | 1)] = *numbers else {
        let form = "3, plate, item, count, width, height, stage, turn (0 or 1)";
        return Err(format!("must be: {form}"));
    };
    let turned = if turn == 1 { " turned" } else { "" };
    let cut = listing.cut_of(plate, item, turn == 1).ok_or(format!(
        "item type {item}{turned} cannot be cut from plate type {plate}"
    ))?;
    let there = &listing.plates[plate];
    if let Some(other) = other_shown(there, [width, height, stage]) {
        return Err(format!(
            "plate type {plate} is {}; the line shows {other}",
            there.words()
        ));
    }
    if count > MOST_PIECES {
        return Err(format!(
            "the count of {} is {}; a plan has at most {} cuts",
            column(&listing.cuts[cut - 1]),
            thousands(count),
            thousands(MOST_PIECES)
        ));
    }
    Ok((cut - 1, count))
}

/// In which of width, height and stage what a line shows differs from a plate, as "width 8 for 9";
/// nothing if it shows the plate.
pub fn other_shown(plate: &Plate, shown: [usize; 3]) -> Option<String> {
    let of_plate = [plate.width, plate.height, plate.stage];
    let numbers = ["width", "height", "stage"].iter().zip(shown).zip(of_plate);
    let others = numbers.filter(|((_, shown), there)| shown != there);
    let others: Vec<String> = others
        .map(|((name, shown), there)| {
            format!("{name} {} for {}", thousands(shown), thousands(there))
        })
        .collect();
    (!others.is_empty()).then(|| others.join(", "))
}

/// The boards of a size that a plan opens.
fn boards_of(listing: &Listing, counts: &[usize], size: usize) -> usize {
    balance(listing, counts, size)[0]
}

/// The boards that a plan opens.
pub fn boards(listing: &Listing, counts: &[usize]) -> usize {
    let sizes = 0..listing.sizes;
    sizes.map(|size| boards_of(listing, counts, size)).sum()
}

/// What the boards that a plan opens cost.
pub fn cost(job: &Job, listing: &Listing, counts: &[usize]) -> usize {
    let sizes = job.sizes.iter().enumerate();
    sizes
        .map(|(number, size)| size.cost * boards_of(listing, counts, number))
        .sum()
}

/// The lines of kind 3 of a plan, cuts rising; a cut that counts 0 has none. Each shows its plate's
/// width, height and stage as the model has them under the number that its column carries.
pub fn lines(listing: &Listing, counts: &[usize]) -> String {
    let done = listing
        .cuts
        .iter()
        .zip(counts)
        .filter(|(_, &count)| count > 0);
    done.map(|(cut, &count)| {
        let [plate, item, turn] = [cut.plate, cut.item, cut.turn()];
        let Plate {
            width,
            height,
            stage,
        } = listing.plates[plate];
        line(&[3, plate, item, count, width, height, stage, turn])
    })
    .collect()
}

#[cfg(test)]
mod tests {
    use super::*;
    use crate::job::tests::{job_a, job_with_leave, two_sizes};

    /// Job A's plan.
    const PLAN: [usize; 8] = [2, 0, 1, 1, 0, 0, 1, 0];

    fn tested(counts: [usize; 8]) -> Result<(), String> {
        accepted(&job_a(), &Listing::of(&job_a()).unwrap(), &counts)
    }

    #[test]
    fn plans_are_tested() {
        assert_eq!(tested(PLAN), Ok(()));
        assert_eq!(tested([2, 0, 1, 2, 0, 0, 1, 0]), Ok(()));
        for (counts, told) in [
            (
                [2, 0, 1, 3, 0, 0, 1, 0],
                "plate type 2 (4 by 4, stage 2) is cut 3 times, but arises 2 times",
            ),
            ([2, 0, 0, 2, 0, 0, 1, 0], "plate type 4"),
            ([0; 8], "item type 1 is cut 0 times; 2 are demanded"),
            ([4000, 1, 0, 0, 0, 0, 0, 0], "4,001 cuts"),
        ] {
            let fault = tested(counts).unwrap_err();
            assert!(fault.contains(told), "{fault}");
        }
    }

    #[test]
    fn a_plan_of_turned_cuts_is_written_with_the_turn() {
        let turning = job_with_leave("2N", [5, 4], &[[3, 4, 3, 1]]);
        let listing = Listing::of(&turning).unwrap();
        let mut solution = Solution::default();
        solution.values.insert("x_0_1_0".into(), 1.0);
        solution.values.insert("x_0_1_1".into(), 2.0);
        let counts = counts(&listing, &solution).unwrap();
        assert_eq!(accepted(&turning, &listing, &counts), Ok(()));
        let lines = lines(&listing, &counts);
        let expected = [[3, 0, 1, 1, 5, 4, 1, 0], [3, 0, 1, 2, 5, 4, 1, 1]];
        assert_eq!(lines, expected.map(|numbers| line(&numbers)).concat());
        let text = turning.text() + &lines;
        assert_eq!(of_text(&text, &turning, &listing), Ok(counts));
        let answer = reference::saw_text(text.as_bytes());
        assert!(answer.ends_with(b"        8        3        0        1        0\n"));
    }

    #[test]
    fn a_plan_on_two_sizes_has_its_cost_and_a_residual_like_a_size_needs_supply() {
        let job = two_sizes();
        let listing = Listing::of(&job).unwrap();
        let counts = [2, 0, 1, 0, 2, 0, 0, 0, 0];
        assert_eq!(accepted(&job, &listing, &counts), Ok(()));
        assert_eq!(boards(&listing, &counts), 3);
        assert_eq!(cost(&job, &listing, &counts), 7);
        let counts = [2, 0, 0, 3, 0, 0, 0, 0, 0];
        let fault = accepted(&job, &listing, &counts).unwrap_err();
        assert!(fault.contains("plate type 2 (9 by 3, stage 1) is cut 3 times"));
    }

    #[test]
    fn what_is_shown_otherwise_is_told() {
        let plate = Listing::of(&job_a()).unwrap().plates[4];
        assert_eq!(other_shown(&plate, [6, 3, 2]), None);
        for (shown, told) in [
            ([5, 3, 2], "width 5 for 6"),
            ([6, 4, 2], "height 4 for 3"),
            ([6, 3, 3], "stage 3 for 2"),
            ([3, 6, 2], "width 3 for 6, height 6 for 3"),
            ([65_542, 3, 1], "width 65,542 for 6, stage 1 for 2"),
            (
                [0, 0, 999_999_999],
                "width 0 for 6, height 0 for 3, stage 999,999,999 for 2",
            ),
        ] {
            assert_eq!(other_shown(&plate, shown).as_deref(), Some(told));
        }
    }

    /// A solution that is job A's plan, but for what solvers leave to rounding.
    fn solution() -> Solution {
        let mut solution = Solution::default();
        let listing = Listing::of(&job_a()).unwrap();
        for (cut, &count) in listing.cuts.iter().zip(&PLAN) {
            solution.values.insert(column(cut), count as f64 - 1e-7);
        }
        solution
    }

    #[test]
    fn a_solution_becomes_lines() {
        let listing = Listing::of(&job_a()).unwrap();
        let counts = counts(&listing, &solution()).unwrap();
        assert_eq!(counts, PLAN);
        assert_eq!(boards(&listing, &counts), 2);
        assert_eq!(cost(&job_a(), &listing, &counts), 2);
        let text = job_a().text() + &lines(&listing, &counts);
        assert_eq!(text.lines().count(), 8);
        assert_eq!(of_text(&text, &job_a(), &listing), Ok(counts.clone()));
        let remarks = text.replace('\n', " # a remark\n");
        assert_eq!(of_text(&remarks, &job_a(), &listing), Ok(counts));
        for (line, told) in [
            (
                "3 1 1 1 9 3 1 0\n",
                "line 9: item type 1 cannot be cut from plate type 1",
            ),
            (
                "3 5 2 1 3 65539 2 0\n",
                "line 9: plate type 5 is 3 by 3, stage 2; the line shows height 65,539 for 3",
            ),
            (
                "3 5 2 1 0\n",
                "line 9: must be: 3, plate, item, count, width",
            ),
            ("3 5 2 1 3 3 2 2\n", "line 9: must be: 3, plate, item"),
            (
                "3 5 2 4001 3 3 2 0\n",
                "line 9: the count of x_5_2_0 is 4,001; a plan has at most 4,000 cuts",
            ),
            (
                "3 4 2 1 6 3 2 0\n",
                "line 9: x_4_2_0 has a count on line 8 already; the saw refuses that with 9",
            ),
        ] {
            let fault = of_text(&(text.clone() + line), &job_a(), &listing).unwrap_err();
            assert!(fault.contains(told), "{fault}");
        }
    }

    #[test]
    fn a_count_is_a_whole_number_up_to_4_000() {
        let listing = Listing::of(&job_a()).unwrap();
        let mut solution = solution();
        for (value, told) in [
            (
                1.5,
                "x_0_1_0 is 1.5, not a whole number: a plan needs the integer solution, not the relaxation's",
            ),
            (4001.0, "x_0_1_0 is 4001; a plan has at most 4,000 cuts"),
            (2e30, "x_0_1_0 is 2e30; a plan has at most 4,000 cuts"),
            (f64::MAX, "308; a plan has at most 4,000 cuts"),
            (-2e30, "not a whole number"),
        ] {
            solution.values.insert("x_0_1_0".into(), value);
            let fault = counts(&listing, &solution).unwrap_err();
            assert!(fault.contains(told), "{fault}");
        }
        solution.values.insert("x_0_1_0".into(), 4000.0);
        assert_eq!(counts(&listing, &solution).unwrap()[0], 4000);
    }
}
