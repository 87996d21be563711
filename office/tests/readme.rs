//! What README.md says of its first command: how many crates it proves, by crates.txt.

use std::collections::{BTreeSet, HashMap};

/// The crates that a crate rests on, itself among them; libraries of the toolchain are none of them.
fn rests_on(name: &str) -> BTreeSet<String> {
    let list = include_str!("../../crates.txt");
    let lines = list.lines().filter_map(|line| line.split_once(':'));
    let below: HashMap<&str, Vec<&str>> = lines
        .filter(|(name, _)| !name.starts_with('#'))
        .map(|(name, below)| (name, below.split_ascii_whitespace().collect()))
        .collect();
    let mut found = BTreeSet::new();
    let mut open = vec![name];
    while let Some(name) = open.pop() {
        if let Some(crates) = below.get(name) {
            if found.insert(name.to_string()) {
                open.extend(crates);
            }
        }
    }
    found
}

#[test]
fn the_first_command_proves_so_many_crates() {
    let readme = include_str!("../../README.md");
    assert!(readme.contains("\n    tools/build saw && target/bin/saw <examples/a.txt "));
    let crates = rests_on("saw");
    assert!(crates.contains("job") && crates.contains("saw"));
    let told = format!("\nThe first proves {} crates, ", crates.len());
    assert!(readme.contains(&told), "the README must say: {told}");
}
