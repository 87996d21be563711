//! Counts the numbers that are written out where a named constant could stand, by crate and
//! pattern; with `--sites PATTERN` lists the places of one pattern.

use audit::literals::{sites, PATTERNS};
use audit::tree::{load, Source};
use std::collections::BTreeMap;
use std::path::Path;
use std::process::ExitCode;

/// What begins a comment in a file.
fn comment(source: &Source) -> &'static str {
    if source.path.ends_with(".rt") {
        "//"
    } else {
        "--"
    }
}

/// Lists the places of one pattern.
fn list(sources: &[Source], pattern: usize) -> String {
    let mut out = String::new();
    for source in sources {
        let lines: Vec<&str> = source.text.lines().collect();
        for site in sites(&source.text, comment(source))
            .iter()
            .filter(|s| s.pattern == pattern)
        {
            out += &format!(
                "{}:{} {}\n",
                source.path,
                site.line,
                lines[site.line - 1].trim()
            );
        }
    }
    out
}

/// A row of the table: its title, a number for each pattern, and their sum.
fn row(title: &str, numbers: &[usize; PATTERNS.len()]) -> String {
    let cells: Vec<String> = numbers
        .iter()
        .map(|n| {
            if *n == 0 {
                String::new()
            } else {
                n.to_string()
            }
        })
        .collect();
    format!(
        "| {title} | {} | {} |\n",
        cells.join(" | "),
        numbers.iter().sum::<usize>()
    )
}

/// The table: the crates, then code, definitions and proofs, then all.
fn table(sources: &[Source]) -> String {
    let mut crates: BTreeMap<&str, [usize; PATTERNS.len()]> = BTreeMap::new();
    let mut parts: BTreeMap<&str, [usize; PATTERNS.len()]> = BTreeMap::new();
    let mut all = [0; PATTERNS.len()];
    for source in sources {
        let mut names = source.path.split('/').skip(1);
        let (owner, part) = (names.next().unwrap_or(""), names.next().unwrap_or(""));
        for site in sites(&source.text, comment(source)) {
            crates.entry(owner).or_default()[site.pattern] += 1;
            parts.entry(part).or_default()[site.pattern] += 1;
            all[site.pattern] += 1;
        }
    }
    let titles: Vec<String> = PATTERNS.iter().map(|p| format!("`{p}`")).collect();
    let mut out = format!(
        "| crate | {} | all |\n|---|{}\n",
        titles.join(" | "),
        "--:|".repeat(PATTERNS.len() + 1)
    );
    crates
        .iter()
        .for_each(|(name, numbers)| out += &row(&format!("`{name}`"), numbers));
    parts
        .iter()
        .for_each(|(name, numbers)| out += &row(&format!("in `{name}/`"), numbers));
    out + &row("all", &all)
}

fn main() -> ExitCode {
    let arguments: Vec<String> = std::env::args().skip(1).collect();
    let mut sources = load(Path::new(".")).expect("the crates can be read");
    sources.retain(|s| s.path.starts_with("crates/"));
    let wanted = arguments
        .iter()
        .position(|a| a == "--sites")
        .map(|at| arguments.get(at + 1).cloned().unwrap_or_default());
    let text = match wanted {
        None => table(&sources),
        Some(name) => match PATTERNS.iter().position(|p| *p == name) {
            Some(pattern) => list(&sources, pattern),
            None => format!(
                "the patterns are {}\n",
                PATTERNS.map(|p| format!("'{p}'")).join(", ")
            ),
        },
    };
    audit::print(&text);
    ExitCode::SUCCESS
}
