//! Jobs of tables and of files of jobs, and every fault of such a file.

use super::*;
use crate::listing::to_walk;

const TABLE: &str = "# a table\n\ninstance 7.2\ntotals 2 5\nboard 22 17 1\nboard 4 30 1\n\
                     cost 22 17 2\nitem 2 11 3\nitem 5 5 2\n";

#[test]
fn an_instance_is_a_job_on_each_board_and_on_all() {
    let found = jobs(TABLE, 4, true).unwrap();
    let names: Vec<&str> = found.jobs.iter().map(|named| named.name.as_str()).collect();
    assert_eq!(
        names,
        [
            "7.2.22x17.2E",
            "7.2.22x17.2N",
            "7.2.22x17.3E",
            "7.2.22x17.3N",
            "7.2.2sizes.2E",
            "7.2.2sizes.2N",
            "7.2.2sizes.3E",
            "7.2.2sizes.3N"
        ]
    );
    // The item of 5 by 5 does not fit a board of 4 by 30.
    assert_eq!(found.left_out, 4);
    let text = found.jobs[7].job.text();
    let expected = [
        "1 3 0 2 2 4",
        "10 0 22 17 748",
        "10 1 4 30 120",
        "2 1 2 11 3 1",
        "2 2 5 5 2 1",
    ];
    let plain = |line: &str| line.split_whitespace().collect::<Vec<_>>().join(" ");
    assert_eq!(text.lines().map(plain).collect::<Vec<_>>(), expected);
}

#[test]
fn a_board_that_stands_twice_is_one_job() {
    let text = "instance 1\nboard 9 7 1\nboard 9 7 4\nitem 5 4 2\n";
    let found = jobs(text, 0, false).unwrap();
    let names = found.jobs.iter().map(|named| named.name.as_str());
    let on_one = names.clone().filter(|name| name.starts_with("1.9x7."));
    assert_eq!((on_one.count(), names.count()), (4, 8));
}

/// Boards as they are sold: the cost of the dearest times its area passes 32 bits.
#[test]
fn large_boards_have_costs_by_area() {
    let text = "instance 1\nboard 10000 10000 1\nboard 2800 2070 1\ncost 10000 10000 999\n\
                item 500 400 2\n";
    let found = jobs(text, 4, false).unwrap();
    let on_all = found.jobs.iter().find(|named| named.name == "1.2sizes.2E");
    let costs = on_all.unwrap().job.sizes.iter().map(|size| size.cost);
    assert_eq!(costs.collect::<Vec<_>>(), [999, 1]);
}

#[test]
fn every_file_of_the_data_folder_is_read() {
    let folder = concat!(env!("CARGO_MANIFEST_DIR"), "/../data");
    let mut read = 0;
    for folder in [folder.to_string(), format!("{folder}/limits")] {
        for file in std::fs::read_dir(folder).unwrap() {
            let path = file.unwrap().path();
            if path.extension().is_some_and(|end| end == "txt") {
                let text = std::fs::read_to_string(&path).unwrap();
                let found = jobs(&text, 0, false).unwrap();
                assert!(!found.jobs.is_empty(), "{}", path.display());
                read += 1;
            }
        }
    }
    assert_eq!(read, 13);
}

#[test]
fn jobs_are_those_of_the_reference() {
    let text = include_str!("../../../data/002-table-1.txt");
    let found = jobs(text, 0, false).unwrap().jobs;
    let theirs = reference::instances::jobs();
    let stock = reference::instances::stock_jobs();
    let theirs = theirs.iter().chain(&stock);
    let theirs: Vec<reference::Job> = theirs
        .filter(|named| named.name.starts_with("002-1 "))
        .filter_map(|named| reference::Job::from_words(&named.words).ok())
        .collect();
    assert_eq!(found.len(), theirs.len());
    for named in &found {
        assert!(theirs.contains(&to_walk(&named.job)), "{}", named.name);
    }
}

/// Files that are wrong, and what is said of them.
const FAULTS: [(&str, &str); 19] = [
    ("", "no instance"),
    ("item 1 2 3\n", "line 1: a file of instances begins"),
    (
        "instance 1\nitem 1 2.5 3\n",
        "2.5 in line 2, column 3, is not",
    ),
    (
        "instance 1\nitem 1 70000 3\n",
        "70000 in line 2, column 3, is too",
    ),
    ("instance 1\nitem 1 2\n", "line 2 has 2 number(s)"),
    (
        "instance 1\nboards 1 2 3\n",
        "line 2: boards begins no line",
    ),
    ("job 1\nmode 4N\n", "line 2: mode is \"4N\"; it must be"),
    (
        "instance ../x\nboard 9 7 1\n",
        "line 1: \"../x\" cannot be the name of a file",
    ),
    ("instance a/b\n", "line 1: \"a/b\" cannot be"),
    ("job ..\\x\n", "cannot be the name of a file"),
    ("instance\n", "line 1: \"\" cannot be"),
    (
        "instance 1\nitem 0 2 3\n",
        "line 2: width is 0; it must be 1 at least",
    ),
    ("instance 1\nitem 1 0 3\n", "line 2: height is 0"),
    ("instance 1\nitem 1 2 0\n", "line 2: demand is 0"),
    ("instance 1\nboard 0 2 1\n", "line 2: width is 0"),
    ("instance 1\nboard 1 0 1\n", "line 2: height is 0"),
    ("job 1\nsize 1 0 3\n", "line 2: height is 0"),
    ("instance 1\ncost 1 2 0\n", "line 2: cost is 0"),
    (
        "instance 1\nboard 9 7 1\nitem 5 4 2\ninstance 1\nboard 9 7 1\nitem 3 3 3\n",
        "two jobs would be named 1.9x7.2E",
    ),
];

#[test]
fn every_fault_is_told() {
    for (text, told) in FAULTS {
        let fault = jobs(text, 0, false).unwrap_err();
        assert!(fault.contains(told), "{text}: {fault}");
    }
}
