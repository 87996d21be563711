//! Prints what has to be believed: the definitions that the contracts and statements of
//! `audit/roots.txt` reach, file by file, and how many they are. With `--files` only the files, as
//! a table.

use audit::believed::{all_files, all_specs, by_group, count, FileReached};
use audit::graph::Graph;
use audit::roots::{groups, Group};
use audit::tree::{load, Tree};
use std::path::Path;
use std::process::ExitCode;

/// A file as the documents name it: `job/Mode` for a file of definitions.
fn short(path: &str) -> String {
    let path = path.strip_prefix("crates/").unwrap_or(path);
    path.strip_suffix(".antt")
        .unwrap_or(path)
        .replace("/specs/", "/")
}

/// The files, as a table.
fn file_table(files: &[FileReached<'_>]) -> String {
    let mut out = "| file | declarations | lines | of |\n|---|--:|--:|--:|\n".to_string();
    for file in files {
        out += &format!(
            "| `{}` | {} | {} | {} |\n",
            short(file.path),
            file.decls.len(),
            file.lines,
            file.all
        );
    }
    out
}

/// The declarations, file by file: line, name, and number of lines.
fn declarations(files: &[FileReached<'_>]) -> String {
    let mut out = String::new();
    for file in files {
        out += &format!("{}: {} of {} lines\n", file.path, file.lines, file.all);
        for decl in &file.decls {
            out += &format!("{:>6}  {}  {}\n", decl.line, decl.name, decl.lines);
        }
    }
    out
}

/// What each group reaches with those before it, and how much there is in all.
fn totals(tree: &Tree<'_>, groups: &[Group], reached: &[Vec<FileReached<'_>>]) -> String {
    let mut out = "| reached by | definitions | files | lines | types in code | lines |\n|---|--:|--:|--:|--:|--:|\n".to_string();
    for (n, (group, files)) in groups.iter().zip(reached).enumerate() {
        let (specs, types) = (count(files, false), count(files, true));
        let title = if n == 0 {
            group.title.clone()
        } else {
            format!("and {}", group.title)
        };
        out += &format!(
            "| {title} | {} | {} | {} | {} | {} |\n",
            specs.decls, specs.files, specs.lines, types.decls, types.lines
        );
    }
    let all = all_specs(tree);
    out += &format!(
        "| all definitions and statements | {} | {} | {} | | |\n",
        all.decls, all.files, all.lines
    );
    let (files, lines) = all_files(tree);
    out + &format!("| all files of definitions and statements, imports and blank lines with them | | {files} | {lines} | | |\n")
}

fn main() -> ExitCode {
    let files_only = std::env::args().any(|a| a == "--files");
    let sources = load(Path::new(".")).expect("the crates can be read");
    let text = std::fs::read_to_string("audit/roots.txt").expect("the roots can be read");
    let tree = Tree::new(&sources);
    let graph = Graph::new(&tree);
    let groups = match groups(&text, &tree, &graph) {
        Ok(groups) => groups,
        Err(message) => {
            println!("audit/roots.txt: {message}");
            return ExitCode::FAILURE;
        }
    };
    let reached = by_group(&tree, &graph, &groups);
    let Some(files) = reached.last() else {
        println!("audit/roots.txt: it has no group");
        return ExitCode::FAILURE;
    };
    let list = if files_only {
        file_table(files)
    } else {
        declarations(files)
    };
    audit::print(&format!("{list}\n{}", totals(&tree, &groups, &reached)));
    ExitCode::SUCCESS
}
