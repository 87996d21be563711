//! Numbers that are too large, wherever a file or an argument may hold one: they are told, and the
//! program never goes on with another number.

mod program;

use program::{good, office, wrong, Folder, JOB};

#[test]
fn a_count_that_no_plan_has_is_told_with_its_column() {
    let folder = Folder::new("counts");
    for (count, told) in [
        ("2e30", "x_0_1_0 is 2e30; a plan has at most 4,000 cuts"),
        ("4001", "x_0_1_0 is 4001; a plan has at most 4,000 cuts"),
    ] {
        let solution = format!("x_0_1_0 {count}\nx_1_2_0 {count}\n");
        let solution = folder.file("solution.txt", solution);
        let said = wrong(&["plan", "-", &solution], JOB);
        assert!(said.contains(told), "{said}");
    }
    let text = format!("{JOB}3 0 1 18446744073709551615 9 7 1 0\n3 0 2 2 9 7 1 0\n");
    let said = wrong(&["prices", "-"], &text);
    let told = "line 5: the count of x_0_1_0 is 18,446,744,073,709,551,615; a plan has at most";
    assert!(said.contains(told), "{said}");
}

/// An item of a ten-thousandth of a board has no whole price beside a D up to 9,999.
#[test]
fn prices_that_show_nothing_are_told() {
    let text = good(
        &["first", "-"],
        "1 2 0 1 1 0\n10 0 10000 10000 1\n2 1 100 100 5 0\n",
    );
    let output = office(&["prices", "-"], &text);
    assert!(output.status.success());
    let said = String::from_utf8(output.stderr).unwrap();
    assert!(said.contains("at least 0, by 0/1"), "{said}");
    let told =
        "warning: standard input: the prices show nothing of the cost: the items are too small";
    assert!(said.contains(told), "{said}");
}

/// There is no line 0, and a text shows no refusal there.
#[test]
fn a_place_that_no_text_has_is_told() {
    let sent = Folder::new("place");
    let text = sent.file("text.txt", good(&["first", "-"], JOB));
    for number in 1..=20 {
        for place in ["0", "18446744073709551615"] {
            // Refusal 5 names a buffer, and 2 with place 0 is no text's.
            if number == 5 || (number, place) == (2, "0") {
                continue;
            }
            let said = wrong(&["explain", &text, &number.to_string(), place], "");
            let told = format!("does not show refusal {number}, place {place}");
            assert!(said.contains(&told), "{said}");
        }
    }
}

/// The program that is handed out ends at a number that leaves its type, as the tested one does.
#[test]
fn the_released_program_checks_its_numbers() {
    let manifest = include_str!("../Cargo.toml");
    let release = manifest.split("[profile.release]").nth(1).unwrap();
    let release = release.split("\n[").next().unwrap();
    assert!(release.lines().any(|line| line == "overflow-checks = true"));
}
