//! The program as tests run it: its words, its standard input, what it writes, and folders for files.

#![allow(dead_code)]

use std::io::Write;
use std::path::PathBuf;
use std::process::{Command, Output, Stdio};
use std::{env, fs, process};

/// Job A as a text and as a table with names, and a solution of GLPK's for it.
pub const JOB: &str = "1 2 0 1 2 0\n10 0 9 7 1\n2 1 5 4 2 0\n2 2 3 3 3 0\n";
pub const TABLE: &str = "\u{feff}# Job A\nmode;2N\nblade;0\nsize;9;7;1\n\n\
                     name;width;height;demand;turn\nshelf;5;4;2;no\n\"door; left\";3;3;3;no\n";
pub const SOLUTION: &str = "s mip 9 9 o 2\nj 1 2\nj 2 2\nj 4 1\nj 5 1\nj 8 1\ne o f\n";

/// A folder that is removed at the end.
pub struct Folder(pub PathBuf);

impl Folder {
    pub fn new(name: &str) -> Folder {
        let path = env::temp_dir().join(format!("office-{name}-{}", process::id()));
        fs::create_dir_all(&path).unwrap();
        Folder(path)
    }

    pub fn file(&self, name: &str, content: impl AsRef<[u8]>) -> String {
        let path = self.0.join(name);
        fs::write(&path, content).unwrap();
        path.to_str().unwrap().to_string()
    }
}

impl Drop for Folder {
    fn drop(&mut self) {
        let _ = fs::remove_dir_all(&self.0);
    }
}

/// Runs the program with standard input.
pub fn office(words: &[&str], input: &str) -> Output {
    let mut child = Command::new(env!("CARGO_BIN_EXE_office"))
        .args(words)
        .stdin(Stdio::piped())
        .stdout(Stdio::piped())
        .stderr(Stdio::piped())
        .spawn()
        .unwrap();
    // A program that refuses its arguments does not read its input.
    let _ = child.stdin.take().unwrap().write_all(input.as_bytes());
    child.wait_with_output().unwrap()
}

/// What a good use writes.
pub fn good(words: &[&str], input: &str) -> String {
    let output = office(words, input);
    assert!(
        output.status.success(),
        "{words:?}: {}",
        String::from_utf8_lossy(&output.stderr)
    );
    String::from_utf8(output.stdout).unwrap()
}

/// What is said of a wrong use, which writes nothing else.
pub fn wrong(words: &[&str], input: &str) -> String {
    let output = office(words, input);
    assert_eq!(
        (output.status.code(), output.stdout.len()),
        (Some(1), 0),
        "{words:?}"
    );
    String::from_utf8(output.stderr).unwrap()
}
