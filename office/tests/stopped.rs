//! Solution files of solvers that were stopped, tests/stopped: the plan is written, and the solver's
//! status is told; files that are cut short are told as such.

mod program;

use office::job::Job;
use office::listing::Listing;
use office::plan;
use office::solution::{Names, Solution};
use program::{office, wrong, Folder};
use std::fs;

/// Each file, the status that it gives, the bound on the cost if it has one, and the cost of its plan.
const STOPPED: [(&str, &str, Option<f64>, usize); 12] = [
    ("cbc-gap", "Optimal (within gap tolerance)", None, 4198),
    ("cbc-nodes", "Stopped on iterations", None, 4198),
    ("cbc-time", "Stopped on time", None, 4198),
    ("glpk", "INTEGER NON-OPTIMAL", None, 4198),
    ("glpk-plain", "INTEGER NON-OPTIMAL", None, 4198),
    ("highs", "Time limit reached", None, 4331),
    ("highs-glpsol", "INTEGER NON-OPTIMAL", None, 4331),
    ("highs-glpsol-pretty", "INTEGER NON-OPTIMAL", None, 4331),
    ("highs-pretty", "Time limit reached", None, 4331),
    ("highs-sparse", "Time limit reached", None, 4331),
    ("lp_solve", "Suboptimal solution", None, 4198),
    (
        "symphony",
        "Node Limit Reached",
        Some(4145.1666666667),
        4198,
    ),
];

/// The path of a file of a folder.
fn path(folder: &str, name: &str) -> String {
    format!("{}/tests/{folder}/{name}.txt", env!("CARGO_MANIFEST_DIR"))
}

fn file(folder: &str, name: &str) -> String {
    fs::read_to_string(path(folder, name)).unwrap()
}

/// The job of the folder and its names.
fn job() -> (Job, Listing, Names) {
    let job = Job::read(&file("stopped", "job")).unwrap();
    let listing = Listing::of(&job).unwrap();
    let names = Names::of(&job, &listing);
    (job, listing, names)
}

#[test]
fn a_solver_that_was_stopped_is_told() {
    let (job, listing, names) = job();
    for (name, status, bound, cost) in STOPPED {
        let solution = Solution::read(&file("stopped", name), &names).unwrap();
        let unproved = solution.unproved.as_ref().unwrap();
        let told = (unproved.status.as_str(), unproved.bound);
        assert_eq!(told, (status, bound), "{name}");
        let counts = plan::counts(&listing, &solution).unwrap();
        assert_eq!(plan::accepted(&job, &listing, &counts), Ok(()), "{name}");
        assert_eq!(plan::cost(&job, &listing, &counts), cost, "{name}");
    }
    let files = fs::read_dir(concat!(env!("CARGO_MANIFEST_DIR"), "/tests/stopped"));
    // The job, and a relaxation.
    assert_eq!(files.unwrap().count(), STOPPED.len() + 2);
}

/// The plan is on standard output, and what is to be said on standard error.
#[test]
fn the_plan_is_written_with_a_warning() {
    let job = path("stopped", "job");
    for (name, status, bound, cost) in STOPPED {
        let output = office(&["plan", &job, &path("stopped", name)], "");
        assert!(output.status.success(), "{name}");
        let plan = String::from_utf8(output.stdout).unwrap();
        let answer = reference::saw_text(plan.as_bytes());
        let answer = String::from_utf8(answer).unwrap();
        let last = answer.lines().last().unwrap();
        assert!(last.starts_with(&format!("        8     {cost}")), "{name}");
        let bound = bound.map_or(String::new(), |bound| {
            format!(", with a bound of {bound} on the cost")
        });
        let told =
            format!("the solver's status is \"{status}\"{bound}: there may be a cheaper plan");
        let said = String::from_utf8(output.stderr).unwrap();
        assert!(said.contains(&told), "{name}: {said}");
    }
}

#[test]
fn a_solution_that_is_the_best_one_has_no_warning() {
    let job = path("solutions", "job");
    for name in [
        "glpk",
        "glpk-plain",
        "cbc",
        "highs",
        "highs-pretty",
        "lp_solve",
        "symphony",
    ] {
        let output = office(&["plan", &job, &path("solutions", name)], "");
        let said = String::from_utf8(output.stderr).unwrap();
        assert_eq!(said, "office: 6 board(s) at a cost of 22\n", "{name}");
    }
}

/// Clp, stopped after ten iterations, has dual prices of 1e10: no plan pays them, and no prices that the
/// saw accepts come of them.
#[test]
fn prices_by_area_take_the_place_of_dual_prices_that_show_nothing() {
    let folder = Folder::new("stopped");
    let job = path("stopped", "job");
    let plan = office(&["plan", &job, &path("stopped", "glpk")], "").stdout;
    let plan = folder.file("plan.txt", plan);
    let by_area = office(&["prices", &plan], "");
    let of_clp = office(&["prices", &plan, &path("stopped", "clp-dual")], "");
    assert!(of_clp.status.success());
    assert_eq!(of_clp.stdout, by_area.stdout);
    let said = String::from_utf8(of_clp.stderr).unwrap();
    for told in [
        "the solver's status is \"Stopped on iterations or time\": its dual prices may show less",
        "its dual prices, up to 1e10, show nothing of the cost; prices by area are written",
        "office: a cost of at least 3026, by 111932/37",
    ] {
        assert!(said.contains(told), "{said}");
    }
    let without_bound = file("stopped", "clp-dual").replace("1e+10", "1e+30");
    let without_bound = folder.file("dual.txt", without_bound);
    let output = office(&["prices", &plan, &without_bound], "");
    assert_eq!(output.stdout, by_area.stdout);
    assert!(String::from_utf8_lossy(&output.stderr).contains("up to 1e30, show nothing"));
}

/// Files of GLPK's forms, and of HiGHS's that say how much they hold, cut at every byte.
#[test]
fn a_file_that_is_cut_short_is_told() {
    let job = Job::read(&file("solutions", "job")).unwrap();
    let names = Names::of(&job, &Listing::of(&job).unwrap());
    for name in [
        "glpk",
        "glpk-dual",
        "glpk-plain",
        "glpk-plain-dual",
        "highs-glpsol",
        "highs-glpsol-pretty",
        "highs-pretty",
    ] {
        let text = file("solutions", name);
        // The form is known from the first line, and the last may end where it says nothing any more.
        let first = text.find('\n').unwrap();
        let last = match name {
            "highs-pretty" => text.find("Model status: ").unwrap() + 14,
            _ => text.trim_end().len(),
        };
        for end in first..last {
            let fault = Solution::read(&text[..end], &names).unwrap_err();
            assert!(fault.contains("is cut short"), "{name}, {end}: {fault}");
        }
        assert!(Solution::read(&text, &names).is_ok(), "{name}");
    }
    for name in ["highs", "highs-dual", "highs-sparse"] {
        let text = file("solutions", name);
        let values = text.find("# Columns ").unwrap() + 12;
        let last = text.find("# Rows").unwrap_or(text.len());
        // Up to the last line, whose number is still one where it is cut.
        let last = text[..last].trim_end().rfind('\n').unwrap();
        for end in values..last {
            let read = Solution::read(&text[..end], &names);
            assert!(read.is_err(), "{name}, {end}");
        }
    }
}

/// GLPK's own count of columns against the lines that are there.
#[test]
fn columns_that_are_missing_are_told() {
    let folder = Folder::new("missing");
    let text = file("solutions", "glpk");
    let line = text
        .lines()
        .find(|line| line.contains(" x_2_1_0 "))
        .unwrap();
    let without = folder.file("solution.txt", text.replace(&format!("{line}\n"), ""));
    let said = wrong(&["plan", &path("solutions", "job"), &without], "");
    let told =
        "solution.txt: the solution file is cut short: it announces 52 columns, and 51 are there";
    assert!(said.contains(told), "{said}");
}

/// HiGHS names the status also where it found nothing.
#[test]
fn a_status_without_a_solution_is_told() {
    let folder = Folder::new("nothing");
    let text = "Model status\nInfeasible\n\n# Primal solution values\nNone\n";
    let solution = folder.file("solution.txt", text);
    let said = wrong(&["plan", &path("solutions", "job"), &solution], "");
    let told = "there is no solution in the file; the solver's status is \"Infeasible\"";
    assert!(said.contains(told), "{said}");
}
