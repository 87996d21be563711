//! The programs: theorems as many as are asked for, the same for the same seed; the jobs of
//! `data/limits/` found again.

use std::collections::BTreeMap;
use std::path::{Path, PathBuf};
use std::process::{self, Command};
use std::{env, fs};

const THEOREMS: &str = env!("CARGO_BIN_EXE_definition-theorems");
const SEARCH: &str = env!("CARGO_BIN_EXE_limit-search");

/// A folder that is removed at the end.
struct Folder(PathBuf);

impl Folder {
    fn new(name: &str) -> Folder {
        let path = env::temp_dir().join(format!("inputs-{name}-{}", process::id()));
        fs::create_dir_all(&path).unwrap();
        Folder(path)
    }
}

impl Drop for Folder {
    fn drop(&mut self) {
        let _ = fs::remove_dir_all(&self.0);
    }
}

/// The files that a program writes into a folder, by name, and what it prints.
fn written(program: &str, name: &str, words: &[&str]) -> (BTreeMap<String, String>, String) {
    let folder = Folder::new(name);
    let output = Command::new(program)
        .arg(&folder.0)
        .args(words)
        .output()
        .unwrap();
    assert!(output.status.success(), "{output:?}");
    let file = |entry: fs::DirEntry| {
        let name = entry.file_name().into_string().unwrap();
        (name, fs::read_to_string(entry.path()).unwrap())
    };
    let entries = fs::read_dir(&folder.0).unwrap();
    let files = entries.map(|entry| file(entry.unwrap())).collect();
    (files, String::from_utf8(output.stdout).unwrap())
}

#[test]
fn theorems_are_as_many_as_are_asked_for_and_the_same_for_a_seed() {
    let first = written(THEOREMS, "first", &["100", "1"]);
    let (files, summary) = &first;
    let ends = |file: &String| {
        file.lines()
            .filter(|line| line.ends_with(" = refl"))
            .count()
    };
    assert_eq!(files.values().map(ends).sum::<usize>(), 100);
    assert_eq!(files.len(), 17);
    assert!(summary.contains("together      100 theorems"), "{summary}");
    assert_eq!(first, written(THEOREMS, "again", &["100", "1"]));
    let (others, _) = written(THEOREMS, "other", &["100", "2"]);
    assert!(files.keys().eq(others.keys()));
    assert!(files.iter().all(|(name, file)| others[name] != *file));
}

#[test]
fn the_search_finds_the_jobs_of_data() {
    let (files, _) = written(SEARCH, "limits", &[]);
    let names: Vec<&str> = files.keys().map(String::as_str).collect();
    assert_eq!(names, ["both.txt", "cuts.txt", "plate-types.txt"]);
    let data = Path::new(env!("CARGO_MANIFEST_DIR")).join("../data/limits");
    for (name, text) in files {
        let there = fs::read_to_string(data.join(&name)).unwrap();
        assert!(there == text, "data/limits/{name} differs");
    }
}
