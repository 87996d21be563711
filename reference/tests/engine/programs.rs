//! The two programs: standard input read whole, the answer on standard output.

use crate::common::jobs::{job_a, PLAN_A};
use crate::common::texts::{assert_text, job_text, line, plan_text_of, refusal};
use reference::{fold_text, saw_text};
use std::io::Write;
use std::process::{Command, Stdio};

const SAW: &str = env!("CARGO_BIN_EXE_reference-saw");
const FOLD: &str = env!("CARGO_BIN_EXE_reference-fold");

/// Runs a program on a text.
fn run(program: &str, text: &[u8]) -> Vec<u8> {
    let mut child = Command::new(program)
        .stdin(Stdio::piped())
        .stdout(Stdio::piped())
        .spawn()
        .unwrap();
    let mut input = child.stdin.take().unwrap();
    input.write_all(text).unwrap();
    drop(input);
    let output = child.wait_with_output().unwrap();
    assert!(output.status.success());
    output.stdout
}

#[test]
fn the_programs_answer_as_the_library_does() {
    let mut plan = job_text(&job_a());
    plan.extend(plan_text_of(&job_a(), &PLAN_A));
    let output = run(SAW, &plan);
    assert_text(&output, &saw_text(&plan));
    let mut layouts = job_text(&job_a());
    layouts.extend(&output[..5 * 91]);
    let folded = run(FOLD, &layouts);
    assert_text(&folded, &fold_text(&layouts));
    assert_text(&folded, &plan[211..]);
}

#[test]
fn the_programs_refuse_with_one_line() {
    for program in [SAW, FOLD] {
        assert_text(&run(program, b""), &refusal(1, 1));
        assert_text(&run(program, &job_text(&job_a())), &refusal(11, 1));
        assert_text(&run(program, &[0xff; 100]), &refusal(1, 1));
    }
}

#[test]
fn the_programs_read_the_longest_texts() {
    let mut text = job_text(&job_a());
    text.extend(line(&[3, 0, 1, 1, 9, 7, 1, 0]).repeat(99_995));
    assert_text(&run(SAW, &text), &refusal(9, 6));
    let mut text = job_text(&job_a());
    text.extend(line(&[7, 1, 0, 1, 1, 1, 1, 0, 0, 0]).repeat(99_996));
    assert_text(&run(FOLD, &text), &refusal(1, 100_000));
}
