//! Jobs of the tests, and how jobs are read.

use super::*;

/// A job in a mode such as "2N", on boards of one size at a cost of 1, with a blade of no width; no
/// item may be turned.
pub fn job(mode: &str, board: [usize; 2], items: &[[usize; 3]]) -> Job {
    let without = |&[width, height, demand]: &[usize; 3]| [width, height, demand, 0];
    let items: Vec<[usize; 4]> = items.iter().map(without).collect();
    job_with_leave(mode, board, &items)
}

/// The same with a blade.
pub fn job_with_blade(mode: &str, board: [usize; 2], blade: usize, items: &[[usize; 3]]) -> Job {
    Job {
        blade,
        ..job(mode, board, items)
    }
}

/// A job in a mode on boards of several sizes, each with width, height and cost.
pub fn job_on(mode: &str, sizes: &[[usize; 3]], items: &[[usize; 3]]) -> Job {
    let size = |&[width, height, cost]: &[usize; 3]| Size {
        width,
        height,
        cost,
    };
    Job {
        sizes: sizes.iter().map(size).collect(),
        ..job(mode, [1, 1], items)
    }
}

/// Job A's items on boards of 9 by 7 at 3 and of 9 by 3 at 1.
pub fn two_sizes() -> Job {
    job_on("2N", &[[9, 7, 3], [9, 3, 1]], &[[5, 4, 2], [3, 3, 3]])
}

/// A job in a mode, the leave of each item type given.
pub fn job_with_leave(mode: &str, [width, height]: [usize; 2], items: &[[usize; 4]]) -> Job {
    let item = |&[width, height, demand, leave]: &[usize; 4]| Item {
        width,
        height,
        demand,
        leave: leave == 1,
    };
    Job {
        stages: mode[..1].parse().unwrap(),
        exact: &mode[1..] == "E",
        sizes: vec![Size {
            width,
            height,
            cost: 1,
        }],
        blade: 0,
        items: items.iter().map(item).collect(),
        names: Vec::new(),
    }
}

/// Job A of docs/FORMAT.md.
pub fn job_a() -> Job {
    job("2N", [9, 7], &[[5, 4, 2], [3, 3, 3]])
}

/// The 6 by 6 example of Silva, Alvelos and Valério de Carvalho.
pub fn example() -> Job {
    job("2N", [6, 6], &[[4, 3, 5], [2, 2, 5]])
}

#[test]
fn a_job_is_read_as_it_is_written() {
    assert_eq!(Job::read(&job_a().text()), Ok(job_a()));
    let turning = job_with_leave("3E", [5, 3], &[[3, 5, 1, 1], [2, 2, 1, 0]]);
    assert_eq!(Job::read(&turning.text()), Ok(turning));
    let with_blade = job_with_blade("2N", [9, 7], 4, &[[5, 4, 2]]);
    let first = "        1        2        0        1        1        4\n\
                \u{20}      10        0        9        7        1\n";
    assert!(with_blade.text().starts_with(first));
    assert_eq!(Job::read(&two_sizes().text()), Ok(two_sizes()));
    assert_eq!(Job::read(&with_blade.text()), Ok(with_blade));
    assert_eq!(job_a().mode(), "2N");
}

/// Job A with blanks as they come.
const JOB_A: &str = "1 2 0 1 2 0\r\n10 0 9 7 1\r\n2 1 5 4 2 0\r\n2 2 3 3 3 0\r\n";

#[test]
fn the_rest_of_a_text_may_follow() {
    for rest in [
        "",
        "\n# a remark\n \n",
        "3 0 1 2 9 7 1 0\n3 0 2 3 9 7 1 0\n",
        "4 1 2 5\n5 1 1\n5 2 0\n6 1 0\n6 2 0\n",
        "3 0 1 2 9 7 1 0 # one\n\n4 1 2 5\n5 1 1\n5 2 0\n6 1 0\n6 2 0\n",
        "7 1 0 1 1 1 1 0 0 0\n7 2 0 1 1 1 1 0 0 0\n",
    ] {
        assert_eq!(Job::read(&format!("{JOB_A}{rest}")), Ok(job_a()), "{rest}");
    }
}

/// What follows job A, and what is said of it.
const AFTER: [(&str, &str); 12] = [
    (
        "\n2 3 3 3 3 0\n",
        "line 6 is of kind 2, and line 1 announces 2 item types, which stand before it: correct n",
    ),
    (
        "10 1 9 7 1\n",
        "line 5 is of kind 10, which does not belong there: after the job's lines there may",
    ),
    ("1 2 0 1 2 0\n", "line 5 is of kind 1, which does not"),
    ("8 2 2 1 1\n", "line 5 is of kind 8, which does not"),
    ("9 1 1\n", "line 5 is of kind 9, which does not"),
    (
        "3 0 1 2 9 7 1 0\n7 1 0 1 1 1 1 0 0 0\n",
        "line 6 is of kind 7, which does not",
    ),
    (
        "7 1 0 1 1 1 1 0 0 0\n3 0 1 2 9 7 1 0\n",
        "line 6 is of kind 3, which does not",
    ),
    ("5 1 1\n", "line 5 is of kind 5, which does not"),
    ("4 1 2 5\n4 1 2 5\n", "line 6 is of kind 4, which does not"),
    (
        "4 1 2 5\n5 1 1\n3 0 1 2 9 7 1 0\n",
        "line 7 is of kind 3, which does not",
    ),
    (
        "3 0 1 2 9 7 1 0\n2 3 3 3 3 0\n",
        "line 6 is of kind 2, and line 1 announces 2",
    ),
    (
        "two more shelves\n",
        "two in line 5, column 1, is not a whole number; after the job's lines",
    ),
];

#[test]
fn nothing_else_may_follow() {
    for (rest, told) in AFTER {
        let fault = Job::read(&format!("{JOB_A}{rest}")).unwrap_err();
        assert!(fault.contains(told), "{rest}: {fault}");
    }
    // A text that was refused is explained by its job all the same.
    assert_eq!(Job::of_lines(&format!("{JOB_A}8 1\n")), Ok(job_a()));
}

#[test]
fn remarks_blank_lines_and_a_byte_order_mark_do_not_matter() {
    let text = "\u{feff}# Job A\n\n1 2 0 1 2 0   # mode 2N\n10 0 9 7 1\n\n\
                2 1 5 4 2 0 # the larger one\n\t\n2 2 3 3 3 0\n";
    assert_eq!(Job::read(text), Ok(job_a()));
    assert_eq!(job_a().name(2), "");
}

/// Jobs that are wrong, and what is said of them.
const FAULTS: [(&str, &str); 29] = [
    ("", "empty"),
    ("1 2 0 9 7", "5 number(s)"),
    (
        "1 2 0 9 7 2 0",
        "n, b, the width of the blade; it has 7 number(s)",
    ),
    ("1 2 0 1 2", "b, the width of the blade; it has 5 number(s)"),
    (
        "1 2 0 1 x 0",
        "x in line 1, column 5, is not a whole number; line 1 must be: 1, stages",
    ),
    (
        "1 2 0 1 1 0\n10 0 9 7 1\n2 5.5 5 4 2 0",
        "5.5 in line 3, column 2, is not a whole number; line 3 must be: 2, 1, width",
    ),
    (
        "\u{feff}# a remark\n1 2 0 1 1 0\n\n10 0 9 7 5,5",
        "5,5 in line 4, column 5, is not a whole number; line 4 must be: 10, 0, W",
    ),
    ("1 4 0 1 2 0", "stages is 4"),
    ("1 2 2 1 2 0", "exact is 2"),
    ("1 2 0 0 2 0", "t is 0; it must be from 1 to 6"),
    ("1 2 0 7 2 0", "t is 7; it must be from 1 to 6"),
    ("1 2 0 1 41 0", "n is 41"),
    ("1 2 0 1 2 21", "b is 21; it must be from 0 to 20"),
    ("1 2 0 2 1 0\n10 0 9 7 1", "only 1 line(s) of kind 10"),
    (
        "1 2 0 1 1 0\n10 1 9 7 1",
        "sizes stand in order from 0, and 1 is not",
    ),
    (
        "1 2 0 1 1 0\n2 1 5 4 2 0",
        "line 2 must be: 10, 0, W, H, cost; it has 6",
    ),
    ("1 2 0 1 1 0\n10 0 10001 7 1", "W is 10,001"),
    ("1 2 0 1 1 0\n10 0 9 0 1", "H is 0"),
    (
        "1 2 0 1 1 0\n10 0 9 7 1000",
        "cost is 1,000; it must be from 1 to 999",
    ),
    ("1 2 0 1 2 0\n10 0 9 7 1\n2 1 5 4 2 0", "only 1 line(s)"),
    ("1 2 0 1 2 0\n10 0 9 7 1\n2 1 5 4 2", "5 number(s)"),
    ("1 2 0 1 2 0\n10 0 9 7 1\n2 2 5 4 2 0", "2 is not the next"),
    (
        "1 2 0 1 2 0\n10 0 9 7 1\n3 1 5 4 2 0",
        "line 3 must be: 2, 1",
    ),
    ("1 2 0 1 1 0\n10 0 9 7 1\n2 1 5 4 0 0", "demand is 0"),
    ("1 2 0 1 1 0\n10 0 9 7 1\n2 1 5 4 1 2", "leave is 2"),
    (
        "1 2 0 1 1 0\n10 0 9 7 1\n2 1 7 9 1 0",
        "has no leave to be turned",
    ),
    (
        "1 2 0 1 1 0\n10 0 9 7 1\n2 1 8 8 1 1",
        "(9 by 7), turned or not",
    ),
    (
        "1 2 0 2 1 0\n10 0 9 7 1\n10 1 3 9 1\n2 1 9 9 1 1",
        "(9 by 7, 3 by 9), turned",
    ),
    (
        "1 2 0 1 2 0\n10 0 9 7 1\n2 1 5 4 3999 0\n2 2 3 3 2 0",
        "add up to 4,001",
    ),
];

#[test]
fn every_fault_is_told() {
    for (text, told) in FAULTS {
        let fault = Job::read(text).unwrap_err();
        assert!(fault.contains(told), "{text}: {fault}");
    }
}
