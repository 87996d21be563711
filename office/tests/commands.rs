//! The program: from a job to a drawing by its commands, and every wrong use.

mod program;

use program::{good, office, wrong, Folder, JOB, SOLUTION, TABLE};
use std::fs;

const DUALS: &str = "s bas 9 9 f f 2\ni 1 l 2 1\ni 2 l 3 0\ne o f\n";

/// Files of an earlier drawing that the kit made, and others of the same names that are the user's own.
const EARLIER: [&str; 4] = [
    "pattern-3.svg",
    "pattern-5.svg",
    "board-1.svg",
    "board-3.svg",
];
const OWN: [&str; 3] = ["pattern-4.svg", "board-2.svg", "board-4.svg"];

/// The saw's answer to job A's plan with prices, as a file of a folder.
fn answered(folder: &Folder, job: &str) -> String {
    let plan = folder.file("plan.txt", good(&["plan", job, "-"], SOLUTION));
    let priced = good(&["prices", &plan, "-"], DUALS);
    let answer = reference::saw_text(priced.as_bytes());
    assert!(answer.ends_with(b"        8        2        2        1        1\n"));
    folder.file("output.txt", answer)
}

#[test]
fn from_a_job_to_a_drawing() {
    let folder = Folder::new("road");
    let job = folder.file("job.txt", JOB);
    assert!(good(&["model", &job], "").ends_with("End\n"));
    let output = answered(&folder, &job);
    let boards = folder.0.join("boards");
    fs::create_dir_all(&boards).unwrap();
    for earlier in EARLIER {
        let picture = "<svg class=\"board\" xmlns=\"http://www.w3.org/2000/svg\" width=\"9\"/>";
        fs::write(boards.join(earlier), picture).unwrap();
    }
    for name in OWN {
        fs::write(boards.join(name), "<svg xmlns=\"my own\"/>").unwrap();
    }
    let told = good(&["draw", &job, &output, boards.to_str().unwrap()], "");
    let totals =
        "2 boards, 2 patterns, cost 2, mode 2N, blade 0 mm\n5 pieces; of the boards' area: \
                  yield 53.2 %, offcuts 41.3 %, waste 5.6 %, swath 0.0 %\nNo plan is cheaper";
    assert!(told.starts_with(totals), "{told}");
    assert!(told.contains("\n   2      3       3  no            3    3       0        0\n"));
    let said = wrong(&["draw", &job, &output, ""], "");
    assert!(said.contains("the folder has no name"), "{said}");
    let drawn = ["pattern-1.svg", "pattern-2.svg", "boards.html"];
    let there = fs::read_dir(&boards).unwrap().count();
    assert_eq!(there, drawn.len() + OWN.len());
    for name in drawn.iter().chain(&OWN) {
        assert!(boards.join(name).is_file(), "{name}");
    }
}

#[test]
fn offcuts_from_two_lengths_on_are_usable() {
    let folder = Folder::new("lengths");
    let job = folder.file("job.txt", JOB);
    let output = answered(&folder, &job);
    let boards = folder.0.join("boards");
    let draw = ["draw", &job, &output, boards.to_str().unwrap()];
    for (lengths, told) in [
        (&[][..], "3 offcuts, 3 usable: at least 1 wide and 1 high."),
        (
            &["9", "3"][..],
            "3 offcuts, 1 usable: at least 9 wide and 3 high.",
        ),
    ] {
        good(&[&draw, lengths].concat(), "");
        let page = fs::read_to_string(boards.join("boards.html")).unwrap();
        assert!(page.contains(told), "{told}");
    }
}

#[test]
fn cut_lists_are_written_as_text_and_as_csv() {
    let folder = Folder::new("cuts");
    let text = good(&["plan", "-", &folder.file("solution.txt", SOLUTION)], JOB);
    let output = folder.file("output.txt", reference::saw_text(text.as_bytes()));
    let list = good(&["cuts", "-", &output, "4", "3"], JOB);
    assert!(list.starts_with("2 boards, 2 patterns, cost 2, mode 2N, blade 0 mm\n"));
    for line in [
        "Pattern 1 of 2: × 1, board 1",
        "  1  strip cut      1  y 4  strip 1, 9 × 4",
        "  3  stack cut    1.2  x 8  stack 2, 3 × 4",
        "  4  trim       1.2.1  y 3  type 2, 3 × 3",
        "     left           2       offcut, 3 × 3",
        "     left                   usable offcut, 9 × 3",
    ] {
        assert!(
            list.lines().any(|of_list| of_list == line),
            "{line}\n{list}"
        );
    }
    let csv = good(&["cuts", "-", &output, "--csv"], JOB);
    assert!(
        csv.contains("\n1,1,0,4,trim,1,2,1,y,3,3,item,3,3,2,0,,3,3\n"),
        "{csv}"
    );
    assert!(
        csv.contains("\n1,1,0,,left,2,,,,,,usable offcut,3,3,,,,3,3\n"),
        "{csv}"
    );
    for words in [["--csv", "4", "3"], ["4", "3", "--csv"]] {
        let with_lengths = good(&[&["cuts", "-", &output], &words[..]].concat(), JOB);
        assert!(with_lengths.contains("\n1,1,0,,left,2,,,,,,offcut,3,3,,,,3,3\n"));
    }
}

#[test]
fn wrong_uses_of_cuts_are_told() {
    let output = "output.txt";
    check(&[
        (&["cuts", "-"], JOB, "cuts is used otherwise"),
        (
            &["cuts", "-", output, "--csv", "4"],
            JOB,
            "cuts is used otherwise",
        ),
        (&["cuts", "-", output, "4"], JOB, "cuts is used otherwise"),
    ]);
}

#[test]
fn a_listing_is_written_as_text_and_as_csv() {
    let listed = good(&["list", "-"], JOB);
    assert!(
        listed.contains("\n    4      6       3      2                7         7\n"),
        "{listed}"
    );
    assert!(
        listed.contains("\n  1      0     1     0      5       4    1      2\n"),
        "{listed}"
    );
    let plates = good(&["list", "-", "--csv", "plates"], JOB);
    assert!(
        plates.contains("\n4,6,3,2,,7,7\n") && plates.lines().count() == 7,
        "{plates}"
    );
    let cuts = good(&["list", "-", "--csv", "cuts"], JOB);
    assert!(
        cuts.contains("\n1,0,1,0,5,4,1,2\n") && cuts.lines().count() == 9,
        "{cuts}"
    );
    check(&[
        (&["list", "-", "--csv"], JOB, "list is used otherwise"),
        (
            &["list", "-", "--csv", "items"],
            JOB,
            "list is used otherwise",
        ),
    ]);
}

/// The status of `office check`, and what it says on both of its outputs.
fn checked(words: &[&str], input: impl AsRef<str>) -> (Option<i32>, String) {
    let output = office(&[&["check"], words].concat(), input.as_ref());
    let said = [output.stdout, output.stderr].concat();
    (output.status.code(), String::from_utf8(said).unwrap())
}

#[test]
fn a_script_can_tell_accepted_from_refused() {
    let folder = Folder::new("check");
    let text = good(&["plan", "-", &folder.file("solution.txt", SOLUTION)], JOB);
    let sent = folder.file("text.txt", &text);
    let answer = String::from_utf8(reference::saw_text(text.as_bytes())).unwrap();
    let accepted = "accepted: 2 board(s), 5 piece(s), cost 2; nothing is known of cheaper plans\n";
    assert_eq!(checked(&["-"], &answer), (Some(0), accepted.into()));
    assert_eq!(checked(&[&sent, "-"], &answer), (Some(0), accepted.into()));
    let (status, said) = checked(&["-"], "        9        8        7\n");
    assert_eq!(status, Some(1));
    assert!(
        said.starts_with("office: refused with 8, place 7;"),
        "{said}"
    );
    let wrong = text.replace("        3        4        2", "        3       44        2");
    let refusal = String::from_utf8(reference::saw_text(wrong.as_bytes())).unwrap();
    let (status, said) = checked(&[&folder.file("wrong.txt", wrong), "-"], refusal);
    assert_eq!(status, Some(1));
    assert!(
        said.starts_with("office: Refusal 8, line 8: there is no plate type 44"),
        "{said}"
    );
}

#[test]
fn a_script_can_tell_that_there_is_no_answer() {
    let folder = Folder::new("no-answer");
    let text = good(&["plan", "-", &folder.file("solution.txt", SOLUTION)], JOB);
    let answer = String::from_utf8(reference::saw_text(text.as_bytes())).unwrap();
    let lines: Vec<&str> = answer.split_inclusive('\n').collect();
    let without_last = lines[..lines.len() - 1].concat();
    for (words, input, told) in [
        (&["-"][..], "", "it is empty"),
        (
            &["-"],
            &without_last,
            "line of kind 8 at its end is missing",
        ),
        (&["-"], &answer[..answer.len() - 1], "cut short"),
        (&["-"], &text, "a text for the saw"),
        (&["/no/such/file"], "", "cannot read /no/such/file"),
        (&[], "", "check is used otherwise"),
    ] {
        let (status, said) = checked(words, input);
        assert!(
            status == Some(2) && said.contains(told),
            "{words:?}: {said}"
        );
    }
}

#[test]
fn a_refusal_is_explained() {
    let folder = Folder::new("explain");
    let text = good(&["plan", "-", &folder.file("solution.txt", SOLUTION)], JOB);
    let text = text.replace(
        "        3        2        2        1        4        4        2        0\n",
        "        3        2        2        3        4        4        2        0\n",
    );
    let sent = folder.file("text.txt", &text);
    let output = folder.file("output.txt", reference::saw_text(text.as_bytes()));
    let told = good(&["explain", &sent, &output], "");
    assert!(
        told.starts_with("Refusal 12, plate type 2: it is 4 by 4, stage 2, is cut 3 times"),
        "{told}"
    );
    assert_eq!(told, good(&["explain", &sent, "12", "2"], ""));
}

/// A plan that was found without a blade, sent with a job that has one: the plates of that job are
/// numbered otherwise, which the first line that differs tells. Its last line names a plate type that
/// the other job has not, so that it is left out here.
#[test]
fn a_plan_for_another_blade_is_found_out_by_its_plates() {
    let folder = Folder::new("other-blade");
    let text = good(&["plan", "-", &folder.file("solution.txt", SOLUTION)], JOB);
    let plan: Vec<&str> = text.lines().skip(4).collect();
    let expected = [
        "        3        0        1        2        9        7        1        0",
        "        3        1        2        1        9        3        1        0",
        "        3        2        2        1        4        4        2        0",
        "        3        4        2        1        6        3        2        0",
    ];
    assert_eq!(plan, expected);
    let with_blade = text.replacen("        2        0\n", "        2        1\n", 1);
    let with_blade = with_blade.replace(&format!("{}\n", expected[3]), "");
    let sent = folder.file("text.txt", &with_blade);
    let output = folder.file("output.txt", reference::saw_text(with_blade.as_bytes()));
    let told = good(&["explain", &sent, &output], "");
    assert_eq!(
        told,
        "Refusal 20, line 6: in the model plate type 1 is 3 by 4, stage 2; the line shows \
         width 9 for 3, height 3 for 4, stage 1 for 2. Number plate types as \"office list\" does: \
         what the line shows is plate type 2 there.\n"
    );
    let said = wrong(&["prices", &sent], "");
    assert!(said.contains("line 6: plate type 1 is 3 by 4"), "{said}");
}

#[test]
fn the_version_is_said() {
    let version = concat!("office ", env!("CARGO_PKG_VERSION"), "\n");
    assert_eq!(good(&["--version"], ""), version);
}

#[test]
fn help_is_given() {
    assert!(good(&["--help"], "").contains("office explain TEXT NUMBER PLACE"));
    assert!(office::help::COMMANDS.len() >= 13);
    for command in office::help::COMMANDS {
        assert!(good(&[command, "--help"], "").starts_with(&format!("office {command} ")));
    }
}

/// Checks what is said of wrong uses.
fn check(uses: &[(&[&str], &str, &str)]) {
    for (words, input, told) in uses {
        let said = wrong(words, input);
        let right = said.starts_with("office: ") && said.contains(told);
        assert!(right, "{words:?}: {said}");
    }
}

#[test]
fn wrong_arguments_are_told() {
    check(&[
        (&[], "", "a command is needed"),
        (&["saw"], "", "there is no command saw"),
        (&["saw", "--help"], "", "there is no command saw"),
        (&["model"], "", "model is used otherwise"),
        (&["plan", "-"], JOB, "plan is used otherwise"),
        (&["model", "/no/such/file"], "", "cannot read /no/such/file"),
        (&["explain", "-", "12", "two"], JOB, "two is not a number"),
        (&["draw", "-", "o", "f", "4"], JOB, "draw is used otherwise"),
        (&["draw", "-", "o", "f", "0", "4"], JOB, "a length of 0"),
        (&["draw", "-", "o", "f", "4", "x"], JOB, "x is not a number"),
        (&["jobs", "-", "f", "21"], "", "BLADE is 21; it must be"),
        (&["jobs", "-", "f", "4", "2"], "", "LEAVE is 2; it must be"),
        (&["jobs", "-", "f"], "5 4\n", "line 1: a file of instances"),
        (&["panel", ""], "", "the folder has no name"),
        (&["split", "-", ""], JOB, "the folder has no name"),
    ]);
}

/// The name of a file need not be in UTF-8. A check then has no answer, which is not a refusal.
#[cfg(unix)]
#[test]
fn an_argument_that_is_not_in_utf_8_is_told() {
    use std::os::unix::ffi::OsStrExt;
    for (command, status) in [("list", 1), ("check", 2)] {
        let name = std::ffi::OsStr::from_bytes(b"k\xfcche.csv");
        let mut program = std::process::Command::new(env!("CARGO_BIN_EXE_office"));
        let output = program.arg(command).arg(name).output().unwrap();
        assert_eq!(output.status.code(), Some(status));
        let said = String::from_utf8(output.stderr).unwrap();
        assert!(said.contains("che.csv is not in UTF-8"), "{said}");
    }
}

#[test]
fn wrong_jobs_and_solutions_are_told() {
    let folder = Folder::new("wrong-solutions");
    let solution = folder.file("solution.txt", SOLUTION);
    let half = folder.file("half.txt", "s bas 9 9 f f 2\nj 2 b 1.5 0\ne o f\n");
    let few = folder.file("few.txt", "s mip 9 9 o 2\nj 2 2\ne o f\n");
    let pieces = format!("{JOB}7 1 0 1 1 1 1 0 0 0\n");
    check(&[
        (&["model", "-"], "1 2 0 9 7", "standard input: line 1"),
        (
            &["model", "-"],
            "1 2 0 1 1 0\n10 0 9 7 1\n2 5.5 4 2 0 0",
            "standard input: 5.5 in line 3, column 2, is not a whole number",
        ),
        (&["plan", "-", &half], JOB, "not a whole number"),
        (&["plan", "-", &few], JOB, "item type 2 is cut 0 times"),
        (
            &["prices", "-", &solution],
            JOB,
            "standard input: a text with a plan, lines 3, is needed, as \"office plan\"",
        ),
        (&["prices", "-"], TABLE, "a text with a plan, lines 3, is"),
        (&["prices", "-"], &pieces, "a text with a plan, lines 3, is"),
    ]);
}

#[test]
fn wrong_outputs_are_told() {
    let folder = Folder::new("wrong-outputs");
    let solution = folder.file("solution.txt", SOLUTION);
    let short = folder.file("short.txt", "7 1 0 1 1 1 1 0 0 0\n8 1 0 1 0\n");
    let zero = folder.file("zero.txt", "7 1 0 1 1 1 1 0 0 0\n8 1 5 0 0\n");
    let boards = folder.0.to_str().unwrap();
    check(&[
        (&["draw", "-", &solution, boards], JOB, "not a line of"),
        (&["draw", "-", &short, boards], JOB, "no plan of this job"),
        (&["labels", "-", &short], JOB, "no plan of this job"),
        (
            &["draw", "-", &zero, boards],
            JOB,
            "ends with 0 and 0; D is",
        ),
        (
            &["cuts", "-", &zero],
            JOB,
            "line 2 of the saw's output ends",
        ),
        (&["explain", "-", "12", "2"], JOB, "is it the text that"),
        (&["explain", "-", &solution], JOB, "no output of the saw"),
    ]);
}
