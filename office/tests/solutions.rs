//! Solution files as the solvers wrote them, tests/solutions: each gives a plan that the second
//! implementation accepts, at the least cost, or prices that show that it is the least.

use office::job::Job;
use office::listing::Listing;
use office::solution::{Names, Solution};
use office::{plan, prices};
use std::fs;

/// The least cost of the job.
const COST: usize = 22;

/// A file of the folder.
fn file(name: &str) -> String {
    let path = format!("{}/tests/solutions/{name}", env!("CARGO_MANIFEST_DIR"));
    fs::read_to_string(path).unwrap()
}

/// The names of all files of the folder, the job's left out.
fn files() -> Vec<String> {
    let folder = concat!(env!("CARGO_MANIFEST_DIR"), "/tests/solutions");
    let names = fs::read_dir(folder).unwrap();
    let names = names.map(|file| file.unwrap().file_name().into_string().unwrap());
    names.filter(|name| name != "job.txt").collect()
}

/// The job, its listing and a solution.
fn read(name: &str) -> (Job, Listing, Solution) {
    let job = Job::read(&file("job.txt")).unwrap();
    let listing = Listing::of(&job).unwrap();
    let names = Names::of(&job, &listing);
    let solution = Solution::read(&file(name), &names);
    (
        job,
        listing,
        solution.unwrap_or_else(|fault| panic!("{name}: {fault}")),
    )
}

/// The cost and the bound that the second implementation says for a text: its line 8.
fn answered(text: &str) -> [usize; 3] {
    let answer = String::from_utf8(reference::saw_text(text.as_bytes())).unwrap();
    let last = answer.lines().last().unwrap();
    let numbers: Vec<usize> = last
        .split_whitespace()
        .map(|word| word.parse().unwrap())
        .collect();
    assert_eq!(numbers[0], 8, "{answer}");
    [numbers[1], numbers[2].div_ceil(numbers[3]), numbers[4]]
}

#[test]
fn every_plan_has_the_least_cost() {
    let mut plans = 0;
    for name in files().iter().filter(|name| !name.contains("-dual")) {
        let (job, listing, solution) = read(name);
        let counts = plan::counts(&listing, &solution).unwrap();
        let text = job.text() + &plan::lines(&listing, &counts);
        assert_eq!(answered(&text)[0], COST, "{name}");
        assert!(solution.duals.is_empty(), "{name}");
        plans += 1;
    }
    assert_eq!(plans, 11);
}

#[test]
fn every_relaxation_gives_the_bound() {
    let (job, listing, solution) = read("cbc.txt");
    let counts = plan::counts(&listing, &solution).unwrap();
    let text = job.text() + &plan::lines(&listing, &counts);
    let mut relaxations = 0;
    for name in files().iter().filter(|name| name.contains("-dual")) {
        let (job, listing, solution) = read(name);
        let duals =
            prices::duals(&job, &solution).unwrap_or_else(|fault| panic!("{name}: {fault}"));
        let prices = prices::scaled(&job, &listing, &duals);
        let text = text.clone() + &prices.lines(listing.sizes);
        assert_eq!(answered(&text), [COST, COST, 1], "{name}");
        relaxations += 1;
    }
    assert_eq!(relaxations, 11);
}

/// HiGHS has the objective among the rows of GLPK's plain form, first or last as its model file has it; the
/// dual prices are those of the rows all the same.
#[test]
fn dual_prices_are_those_of_their_rows_wherever_the_objective_stands() {
    for name in [
        "glpk-plain-dual.txt",
        "highs-glpsol-dual.txt",
        "highs-glpsol-mps-dual.txt",
    ] {
        let (_, _, solution) = read(name);
        for (row, dual) in [
            ("item_1", 1.5),
            ("item_2", 1.0),
            ("item_3", 1.4),
            ("boards_0", -7.0),
            ("boards_1", -3.0),
            ("plate_9", 4.2),
            ("plate_17", 1.4),
            ("pieces", 0.0),
        ] {
            assert!((solution.duals[row] - dual).abs() < 1e-6, "{name}: {row}");
        }
    }
}

/// The values of a relaxation are read apart from its limits and reduced costs.
#[test]
fn limits_and_reduced_costs_are_no_values() {
    for name in ["qsopt-dual.txt", "lp_solve-dual.txt", "highs-dual.txt"] {
        let (job, listing, solution) = read(name);
        let counts = plan::counts(&listing, &solution).unwrap();
        let text = job.text() + &plan::lines(&listing, &counts);
        assert_eq!(answered(&text)[0], COST, "{name}");
    }
}

/// A list with "=" between name and value, as an editor or a script may write it.
#[test]
fn names_may_stand_with_an_equals_sign() {
    let (job, listing, solution) = read("symphony.txt");
    let names = Names::of(&job, &listing);
    let mut values: Vec<_> = solution.values.iter().collect();
    values.sort_by(|one, other| one.0.cmp(other.0));
    let list = |by: &str| {
        let line = |(name, value): &(&String, &f64)| format!("{name}{by}{value}\n");
        values.iter().map(line).collect::<String>()
    };
    for by in [" = ", "=", "\t", " =\t"] {
        assert_eq!(Solution::read(&list(by), &names).as_ref(), Ok(&solution));
    }
}
