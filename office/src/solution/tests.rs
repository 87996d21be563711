//! Solutions of job A in every form that the solvers write.

use super::*;
use crate::job::tests::job_a;

fn names() -> Names {
    Names::of(&job_a(), &Listing::of(&job_a()).unwrap())
}

fn read(text: &str) -> Solution {
    Solution::read(text, &names()).unwrap()
}

/// The value of a column that is not 0, and the number of such columns, those of sizes among them.
fn nonzero(solution: &Solution, name: &str) -> (f64, usize) {
    let others = solution
        .values
        .values()
        .filter(|&&value| value != 0.0)
        .count();
    (solution.values[name], others)
}

/// What GLPK 5.0 printed for job A: the integer solution, and the relaxation.
const PRINTED: &str = include_str!("../../tests/road/a.sol");
const PRINTED_DUALS: &str = include_str!("../../tests/road/a.dual");

#[test]
fn glpk_printed() {
    let solution = read(PRINTED);
    assert_eq!(nonzero(&solution, "x_3_1_0"), (2.0, 4));
    assert_eq!(solution.values["size_0"], 2.0);
    assert!(solution.duals.is_empty());
    let solution = read(PRINTED_DUALS);
    assert_eq!(nonzero(&solution, "x_0_1_0"), (2.0, 4));
    assert_eq!(solution.duals["item_1"], 1.0);
    assert_eq!(solution.duals["item_2"], 0.0);
    assert_eq!(solution.duals["boards_0"], -1.0);
    assert_eq!(solution.duals["plate_2"], 0.0);
}

#[test]
fn glpk_plain() {
    let solution =
        read("c Status\ns mip 9 9 o 2\ni 1 2\nj 1 2\nj 2 2\nj 4 2\nj 5 1\nj 6 0\ne o f\n");
    assert_eq!(nonzero(&solution, "x_2_2_0"), (1.0, 4));
    assert_eq!(solution.values["size_0"], 2.0);
    assert!(solution.duals.is_empty());
    let solution = read(
        "s bas 9 9 f f 2\ni 1 l 2 1\ni 3 s 0 -1\ni 5 b 1 0\nj 1 b 2 0\nj 2 b 2 0\nj 7 l 0 1\ne o f\n",
    );
    assert_eq!(nonzero(&solution, "x_0_1_0"), (2.0, 2));
    assert_eq!(solution.duals["item_1"], 1.0);
    assert_eq!(solution.duals["boards_0"], -1.0);
    let solution = read("s ipt 9 9 o 2.5\ni 1 2.0 0.9999\nj 2 1.0903 5.9e-10\ne o f\n");
    assert_eq!(solution.duals["item_1"], 0.9999);
}

#[test]
fn cbc() {
    let head = "Optimal - objective value 2.00000000\n";
    let solution = read(&format!(
        "{head}      0 size_0      2      1\n      1 x_0_1_0      0      0\n      2 x_0_2_0      2      0\n**    5 x_3_1_0      2      0\n"
    ));
    assert_eq!(nonzero(&solution, "x_3_1_0"), (2.0, 3));
    let solution = read(&format!(
        "{head}      0 item_1      2     1\n      2 boards_0      0     -1\n      1 x_0_1_0      0     0\n"
    ));
    assert_eq!(solution.duals["item_1"], 1.0);
}

#[test]
fn names_and_values() {
    let solution = read(
        "solution status: optimal\nobjective value: 2\nsize_0   2 \t(obj:1)\nx_0_1_0   2 \t(obj:0)\nx_2_2_0  1 (obj:0)\n",
    );
    assert_eq!(nonzero(&solution, "x_2_2_0"), (1.0, 3));
    let solution = read("\u{feff}x_0_1_0 = 2\nx_2_2_0 = 1\n");
    assert_eq!(nonzero(&solution, "x_0_1_0"), (2.0, 2));
    let solution = read("# Columns 3\nsize_0 2\nx_0_1_0 2\nx_1_2_0 0\n# Rows 2\nitem_1 2\nboards_0 0\n# Dual solution values\nitem_1 1\nboards_0 -1\nx_0_1_0 7\n");
    assert_eq!(nonzero(&solution, "x_0_1_0"), (2.0, 2));
    assert_eq!(solution.duals["item_1"], 1.0);
}

#[test]
fn cplex() {
    let head = "<?xml version = \"1.0\"?>\n<CPLEXSolution version=\"1.2\">\n <header problemName=\"a\"/>\n";
    let solution = read(&format!(
        "{head} <linearConstraints>\n  <constraint name=\"item_1\" index=\"0\" slack=\"0\" dual=\"1\"/>\n \
         </linearConstraints>\n <variables>\n  <variable name=\"size_0\" index=\"0\" value=\"2\"/>\n  \
         <variable name=\"x_0_1_0\" index=\"1\" value=\"2\"/>\n  \
         <variable name=\"x_0_2_0\" index=\"2\" value=\"0\"/>\n </variables>\n</CPLEXSolution>\n"
    ));
    assert_eq!(nonzero(&solution, "x_0_1_0"), (2.0, 2));
    assert_eq!(solution.duals["item_1"], 1.0);
    assert_eq!(solution.unproved, None);
    let stopped = head.replace(
        "problemName=\"a\"",
        "problemName=\"a\"\n   solutionStatusString=\"time limit exceeded\"",
    );
    let solution = read(&format!(
        "{stopped} <variables>\n  <variable name=\"x_0_1_0\" index=\"1\" value=\"2\"/>\n </variables>\n"
    ));
    assert_eq!(solution.unproved, Unproved::of("time limit exceeded"));
}

#[test]
fn every_fault_is_told() {
    for (text, told) in [
        ("", "empty"),
        (
            "Problem:\nStatus:     INTEGER UNDEFINED\nEnd of output\n",
            "no solution",
        ),
        ("Problem:\nStatus:     INTEGER OPTIMAL\n", "cut short"),
        ("s mip 9 9 u 0\ne o f\n", "no solution"),
        ("s bas 9 9 f n 0\ne o f\n", "no solution"),
        ("s mip 8 9 o 0\ne o f\n", "8 rows and 9 columns"),
        ("s mip 9 9 o 0\nj 10 1\ne o f\n", "not the model's"),
        ("s mip 9 9 o 0\nj 1 1\n", "cut short"),
        ("Infeasible - objective value 0\n", "no solution"),
        (
            "Integer infeasible - objective value 0\n",
            "CBC found no solution; it says: Integer infeasible",
        ),
        ("Unbounded - objective value 0\n", "CBC found no solution"),
        (
            "Optimal - objective value 2\n 0 x_9_9_0 1 0\n",
            "no such cut",
        ),
        (
            "Optimal - objective value 2\n 0 size_1 1 0\n",
            "a column size_1, and this job has no such size",
        ),
        ("Optimal - objective value 2\n 0 x_0_1_0\n", "not CBC's"),
        ("hello\n", "no column of the job's model"),
        (
            "x_0_1_0 inf\nx_1_2_0 1\n",
            "x_0_1_0 is inf in the solution, which is no number",
        ),
        ("<?xml?>\n", "no variable of the job's model"),
    ] {
        let fault = Solution::read(text, &names()).unwrap_err();
        assert!(fault.contains(told), "{text}: {fault}");
    }
}
