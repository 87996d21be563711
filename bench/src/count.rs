//! Instructions: this program is run under callgrind for one call of one side, and what is executed in
//! `measured_call` and below it is counted, by function.

use crate::task::{Call, Side};
use std::collections::HashMap;
use std::env::{current_exe, temp_dir};
use std::fs;
use std::process::{id, Command};

/// The instructions of one call, and the function that has most of them, without those that it calls.
#[derive(Default)]
pub struct Counted {
    pub all: u64,
    pub function: String,
    pub in_function: u64,
}

/// The instructions of one call, if callgrind is there; else nothing.
pub fn instructions(side: Side, call: Call, name: &str) -> Option<Counted> {
    let file = temp_dir().join(format!("callgrind-{}", id()));
    let output = Command::new("valgrind")
        .args(["--tool=callgrind", "--toggle-collect=measured_call"])
        .arg(format!("--callgrind-out-file={}", file.display()))
        .arg(current_exe().ok()?)
        .args(["once", side.name(), call.name(), name])
        .output()
        .ok()?;
    assert!(output.status.success(), "{output:?}");
    let profile = fs::read_to_string(&file).ok()?;
    fs::remove_file(&file).ok()?;
    Some(read(&profile))
}

/// Reads a profile. `fn=(3) name` begins a function, later `fn=(3)` alone; the lines of its own are a place and a
/// cost; `cfn=` names a function that it calls, and the line after `calls=` is that function's cost.
fn read(profile: &str) -> Counted {
    let mut names: HashMap<&str, &str> = HashMap::new();
    let mut costs: HashMap<&str, u64> = HashMap::new();
    let mut function = "";
    let mut lines = profile.lines();
    while let Some(line) = lines.next() {
        if line.starts_with("calls=") {
            lines.next();
        } else if let Some((kind @ ("fn" | "cfn"), which)) = line.split_once('=') {
            let (number, name) = which.split_once(' ').unwrap_or((which, ""));
            let name = *names.entry(number).or_insert(name);
            if kind == "fn" {
                function = name;
            }
        } else if line.starts_with(|first: char| first.is_ascii_digit() || "+-*".contains(first)) {
            let cost = line.split_whitespace().nth(1);
            *costs.entry(function).or_default() += cost.map_or(0, |cost| cost.parse().unwrap_or(0));
        }
    }
    let most = costs.iter().max_by_key(|(_, &cost)| cost);
    Counted {
        all: costs.values().sum(),
        function: most.map_or(String::new(), |(name, _)| name.to_string()),
        in_function: most.map_or(0, |(_, &cost)| cost),
    }
}
