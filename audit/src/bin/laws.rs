//! Lists the laws and definitions that nothing cites, those that stand twice, and the imports that
//! nothing uses. Fails if there is one of the first two kinds that is no exception, or an exception
//! that covers nothing; with `--imports` also for an import.

use audit::exceptions::parse;
use audit::laws::lists;
use audit::tree::{load, Tree};
use std::path::Path;
use std::process::ExitCode;

/// Prints a list under its title, and says whether it has an entry.
fn print(title: &str, lines: &[String]) -> bool {
    let mut text = format!("{title}: {}\n", lines.len());
    lines.iter().for_each(|line| text += &format!("{line}\n"));
    audit::print(&(text + "\n"));
    !lines.is_empty()
}

fn main() -> ExitCode {
    let imports_count = std::env::args().any(|a| a == "--imports");
    let sources = load(Path::new(".")).expect("the crates can be read");
    let text = std::fs::read_to_string("audit/exceptions.txt").expect("the exceptions can be read");
    let exceptions = match parse(&text) {
        Ok(exceptions) => exceptions,
        Err(message) => {
            println!("audit/exceptions.txt: {message}");
            return ExitCode::FAILURE;
        }
    };
    let lists = lists(&Tree::new(&sources), &exceptions);
    let mut failed = print("nothing cites", &lists.uncited);
    failed |= print("stands twice", &lists.doubled);
    failed |= print("imports that nothing uses", &lists.imports) && imports_count;
    failed |= print("exceptions that cover nothing", &lists.stale);
    if failed {
        ExitCode::FAILURE
    } else {
        ExitCode::SUCCESS
    }
}
