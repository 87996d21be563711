//! How tables are read and written.

use super::*;
use crate::job::tests::{job_a, job_with_leave, two_sizes};

const TABLE: &str = "\
# Kitchen, order 17
mode,2N
blade,0
size,9,7

name,width,height,demand,turn
shelf,5,4,2,no
\"door, left\",3,3,3,
";

/// Job A with these names.
fn named(names: [&str; 2]) -> Job {
    Job {
        names: names.map(str::to_string).to_vec(),
        ..job_a()
    }
}

#[test]
fn a_table_is_a_job_with_names() {
    let job = named(["shelf", "door, left"]);
    assert_eq!(Job::read(TABLE), Ok(job.clone()));
    assert_eq!(
        [1, 2].map(|item_type| job.name(item_type)),
        ["shelf", "door, left"]
    );
    assert_eq!(job.type_words(1), "item type 1 (shelf)");
    let from_excel = format!("\u{feff}{}", TABLE.replace('\n', "\r\n"));
    assert_eq!(Job::read(&from_excel), Ok(job.clone()));
    let semicolons = TABLE.replace(',', ";").replace("door; left", "door, left");
    assert_eq!(Job::read(&semicolons), Ok(job.clone()));
    assert_eq!(
        Job::read(&format!("sep=;\r\n{semicolons}")),
        Ok(job.clone())
    );
    let filled = TABLE
        .replace("mode,2N", "mode,2N,,,")
        .replace("\n\n", "\n,,,,\n");
    assert_eq!(Job::read(&filled), Ok(job.clone()));
    let tabs = "mode\t2n\nblade\t0\nsize\t9\t7\t1\n\
                Leave\tQuantity\tremark\tHeight\tWidth\tPart\n\
                0\t2\told\t4\t5\tshelf\nn\t3\t\t3\t3\tdoor, left\n";
    assert_eq!(Job::read(tabs), Ok(job));
}

#[test]
fn a_table_without_names_is_a_job_without() {
    let text = "mode,2N\nblade,0\nsize,9,7,3\nsize,9,3,1\nwidth,height,demand\n5,4,2\n3,3,3\n";
    assert_eq!(Job::read(text), Ok(two_sizes()));
}

#[test]
fn a_table_is_read_as_it_is_written() {
    let turning = job_with_leave("3E", [5, 3], &[[3, 5, 1, 1], [2, 2, 1, 0]]);
    for job in [
        job_a(),
        two_sizes(),
        turning,
        named(["\"A\", #4; left", " door"]),
    ] {
        let read = Job::read(&csv(&job)).unwrap();
        assert_eq!(read.text(), job.text());
        let names = |job: &Job| [1, 2].map(|item_type| job.name(item_type).trim().to_string());
        assert_eq!(names(&read), names(&job));
    }
}

/// A remark is one as long as it has not the numbers of an item; before the row that names the columns
/// nothing is known of these.
#[test]
fn remarks_are_left_out_and_items_are_not() {
    let named = |name: &str| named([name, "door, left"]);
    let job = Job::read(TABLE).unwrap();
    for remark in [
        "# to be drilled",
        "#,,,,",
        "# as in order 16: shelf,5,4",
        "# shelf,5,four,2,no",
    ] {
        let text = TABLE.replace("shelf,5", &format!("{remark}\nshelf,5"));
        assert_eq!(Job::read(&text), Ok(job.clone()), "{remark}");
        let text = format!("# shelf,5,4,2,no\n{text}");
        assert_eq!(Job::read(&text), Ok(job.clone()), "{remark}");
    }
    let in_marks = TABLE.replace("shelf,5", "\"#4 shelf\",5");
    assert_eq!(Job::read(&in_marks), Ok(named("#4 shelf")));
    let name_last =
        "mode,2N\nblade,0\nsize,9,7\nwidth,height,demand,name\n5,4,2,#1\n#3,3,3,#2\n3,3,3,#2\n";
    assert_eq!(Job::read(name_last).unwrap().items, job_a().items);
}

/// What is changed in the table, into what, and what is said then.
const FAULTS: [(&str, &str, &str); 33] = [
    (
        "5,4,2",
        "5.5,4,2",
        "5.5 in line 7, column 2 (width), is not a whole number",
    ),
    ("5,4,2", "5,4,", "line 7, column 4: demand is missing"),
    (
        "5,4,2",
        "5,4,0",
        "line 7: demand is 0; it must be from 1 to 4,000",
    ),
    (
        "5,4,2,no",
        "5,4,2,never",
        "never in line 7, column 5 (turn), must be yes or no",
    ),
    (
        "5,4,2",
        "50,4,2",
        "item type 1 (shelf) is 50 by 4 and fits no board",
    ),
    ("left\"", "left", "line 8: a quotation mark is not closed"),
    (
        "mode,2N",
        "mode,4N",
        "line 2: mode is \"4N\"; it must be 2E",
    ),
    ("mode,2N\n", "", "a row is missing: mode"),
    ("blade,0\n", "", "a row is missing: blade"),
    (
        "blade,0",
        "blade,21",
        "line 3: blade is 21; it must be from 0 to 20",
    ),
    (
        "blade,0",
        "blade,4.2",
        "4.2 in line 3, column 2 (blade), is not",
    ),
    ("size,9,7\n", "", "the number of rows \"size\" is 0"),
    ("size,9,7", "size,9", "line 4, column 3: height is missing"),
    ("size,9,7", "size,9,7,1000", "line 4: cost is 1,000"),
    (
        "size,9,7",
        "board,9,7",
        "\"board, 9, 7\" is neither mode, blade or size",
    ),
    (
        "name,width,height,demand",
        "part,length,sides,pieces",
        "such as: name, width",
    ),
    (
        "width,height,demand",
        "length,width,pieces",
        "names the columns of the items, and a column is missing: height; demand or count or quantity",
    ),
    (
        "shelf,5,4,2,no\n\"door, left\",3,3,3,\n",
        "",
        "item types is 0",
    ),
    (
        "# Kitchen",
        "instance 1\n# Kitchen",
        "line 1: this is a file of instances",
    ),
    (
        "blade,0\n",
        "blade,0\nBlade,0\n",
        "line 4: there is a row blade on line 3 already",
    ),
    (
        "size,9,7\n",
        "size,9,7\nmode,2E\n",
        "line 5: there is a row mode on line 2 already",
    ),
    (
        "name,width,height,demand,turn",
        "name,width,height,demand,Width",
        "line 6: \"Width\" names the same as \"width\", in columns 2 and 5",
    ),
    (
        "name,width,height,demand,turn",
        "name,width,height,demand,quantity",
        "line 6: \"quantity\" names the same as \"demand\", in columns 4 and 5",
    ),
    (
        "name,width,height,demand,turn",
        "name,width,height,demand,part",
        "line 6: \"part\" names the same as \"name\", in columns 1 and 5",
    ),
    (
        "shelf,5,4,2,no",
        "shelf,5,4,2,no\n #4 rail,3,3,1,no",
        "line 8 begins with # and reads like an item; put its name in quotation marks",
    ),
    (
        "shelf,5,4,2",
        "sh\u{1b}[31melf,5,4,2",
        "line 7: a control character, number 27, stands in a cell",
    ),
    // A comma in a number parts it in two.
    (
        "blade,0",
        "blade,3,2",
        "2 in line 3, column 3, is one cell too many",
    ),
    ("mode,2N", "mode,2N,,3N", "3N in line 2, column 4, is one"),
    (
        "size,9,7",
        "size,9,7,1,5",
        "5 in line 4, column 5, is one cell too many",
    ),
    (
        "shelf,5,4,2,no",
        "shelf,5,4,2,no,7",
        "7 in line 7, column 6, is one cell too many",
    ),
    (
        "demand,turn\nshelf,5,4,2,no",
        "demand\nshelf,5,5,4,2",
        "2 in line 7, column 5, is one cell too many",
    ),
    // It would read like an item of that name.
    (
        "shelf,5,4,2,no",
        "shelf,5,4,2,no\nSize,3,3,1",
        "line 8: a row \"Size\" stands before the row that names the columns, and no item has",
    ),
    (
        "shelf,5,4,2,no",
        "shelf,5,4,2,no\nmode,3N",
        "line 8: a row \"mode\" stands before the row",
    ),
];

#[test]
fn every_fault_is_told() {
    for (from, to, told) in FAULTS {
        assert!(TABLE.contains(from), "{from}");
        let fault = Job::read(&TABLE.replace(from, to)).unwrap_err();
        assert!(fault.contains(told), "{from} {to}: {fault}");
    }
}
