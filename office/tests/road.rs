//! The roads that README.md and docs/FORMAT.md print, from a job to a drawing, run command by
//! command on job A. The solver's files are those that GLPK 5.0 wrote (tests/road); the saw is the
//! second implementation, or the program `saw` of the folder that PROGRAMS names.

use std::path::{Path, PathBuf};
use std::process::{Command, Output};
use std::{env, fs, process};

/// The indented lines of a section of a document, without the indent.
fn commands(document: &str, section: &str) -> Vec<String> {
    let path = format!("{}/../{document}", env!("CARGO_MANIFEST_DIR"));
    let text = fs::read_to_string(path).unwrap();
    let section = text.split("\n## ").find(|part| part.starts_with(section));
    let lines = section.unwrap().lines();
    lines
        .filter_map(|line| line.strip_prefix("    "))
        .map(str::to_string)
        .collect()
}

/// A folder with job A, an `office` that is the one tested and a `glpsol` that hands out the kept
/// files.
fn folder(name: &str) -> PathBuf {
    let path = env::temp_dir().join(format!("office-{name}-{}", process::id()));
    let [bin, examples] = ["bin", "examples"].map(|part| path.join(part));
    fs::create_dir_all(&bin).unwrap();
    fs::create_dir_all(&examples).unwrap();
    let here = env!("CARGO_MANIFEST_DIR");
    let job = fs::read(format!("{here}/../examples/a.job")).unwrap();
    fs::write(examples.join("a.job"), &job).unwrap();
    fs::write(path.join("job.txt"), &job).unwrap();
    let solver = format!(
        "case \"$*\" in *--nomip*) kept=a.dual;; *) kept=a.sol;; esac\n\
         while [ \"$1\" != -o ]; do shift; done\ncp '{here}/tests/road/'$kept \"$2\"\n"
    );
    program(&bin.join("glpsol"), &solver);
    let office = env!("CARGO_BIN_EXE_office");
    program(&bin.join("office"), &format!("exec '{office}' \"$@\"\n"));
    path
}

/// Writes a program of the shell.
fn program(path: &Path, script: &str) {
    fs::write(path, format!("#!/bin/sh\n{script}")).unwrap();
    let status = Command::new("chmod").arg("+x").arg(path).status().unwrap();
    assert!(status.success());
}

/// Runs a command of a road in the folder.
fn run(command: &str, folder: &Path) -> Output {
    let words: Vec<&str> = command.split_ascii_whitespace().collect();
    let mut bins = vec![folder.join("bin")];
    match (words[0], env::var_os("PROGRAMS")) {
        ("saw", None) => {
            let [_, text, output] = words[..] else {
                panic!("{command}: saw <TEXT >OUTPUT is expected")
            };
            let text = folder.join(text.strip_prefix('<').unwrap());
            let answer = reference::saw_text(&fs::read(text).unwrap());
            fs::write(folder.join(output.strip_prefix('>').unwrap()), answer).unwrap();
            return Command::new("true").output().unwrap();
        }
        (_, programs) => bins.extend(programs.map(PathBuf::from)),
    }
    bins.extend(env::split_paths(&env::var_os("PATH").unwrap()));
    let mut shell = Command::new("sh");
    shell.args(["-c", command]).current_dir(folder);
    shell.env("PATH", env::join_paths(bins).unwrap());
    shell.output().unwrap()
}

/// Runs a road: every command ends with 0, the plan's text is kept in a file, and the page says
/// that no plan is cheaper.
fn road(document: &str, section: &str, name: &str) {
    let commands = commands(document, section);
    let road = commands.iter().filter(|command| {
        ["office ", "glpsol ", "saw "]
            .iter()
            .any(|start| command.starts_with(start))
    });
    let folder = folder(name);
    let mut said = Vec::new();
    for command in road {
        assert!(!command.contains('|'), "a pipe hides a failure: {command}");
        let output = run(command, &folder);
        let fault = String::from_utf8_lossy(&output.stderr);
        assert!(output.status.success(), "{command}: {fault}");
        said.push(String::from_utf8(output.stdout).unwrap());
    }
    let all = said.concat();
    assert!(
        all.contains("accepted: 2 board(s), 5 piece(s), cost 2; no plan is cheaper"),
        "{all}"
    );
    assert!(folder.join("plan.txt").is_file());
    let page = fs::read_to_string(folder.join("boards/boards.html")).unwrap();
    assert!(page.contains("No plan is cheaper: the prices show a bound of"));
    fs::remove_dir_all(folder).unwrap();
}

#[test]
fn the_road_of_the_readme() {
    road("README.md", "From a job to a drawing", "readme");
}

#[test]
fn the_road_of_the_handbook() {
    road("docs/FORMAT.md", "From an office solver", "handbook");
}
