//! The saw program and the fold program against those of the reference, byte for byte.
//!
//! usage: programs ENGINE REFERENCE [TEXTS [SEED]]          (300 texts of each kind and seed 1, if not given)
//!
//! ENGINE is the folder of `saw` and `fold`, REFERENCE that of `reference-saw` and `reference-fold`. Ends with 1
//! at the first difference, which it prints, and also if a program has 1 MB of memory of its own or more, or
//! cannot do with 1 MB of stack.

use std::path::{Path, PathBuf};
use std::process::ExitCode;
use std::{env, fs};

mod feed;
mod memory;
mod trials;

use inputs::Text;
use trials::Trials;

/// Where the programs are.
struct Folders {
    engine: PathBuf,
    reference: PathBuf,
}

/// Runs both programs on all inputs, and says what was seen.
fn run(folders: &Folders, texts: usize, seed: u64) -> Result<(), String> {
    let file = env::temp_dir().join(format!("programs-{}", std::process::id()));
    let mut failed = Ok(());
    for kind in Text::BOTH {
        let name = match kind {
            Text::Saw => "saw",
            Text::Fold => "fold",
        };
        let mut trials = Trials {
            kind,
            engine: folders.engine.join(name),
            reference: folders.reference.join(format!("reference-{name}")),
            file: file.clone(),
            inputs: 0,
        };
        match trials.all(texts, seed) {
            Ok(seen) => println!("{name}: {seen}"),
            Err(difference) => {
                failed = Err(format!("{name}: {difference}"));
                break;
            }
        }
    }
    // Where it was never written there is nothing to remove.
    let _ = fs::remove_file(&file);
    failed
}

fn main() -> ExitCode {
    let arguments: Vec<String> = env::args().skip(1).collect();
    let number = |at: usize, default: u64| match arguments.get(at) {
        None => Some(default),
        Some(word) => word.parse().ok(),
    };
    let ([engine, reference, ..], Some(texts), Some(seed)) =
        (&arguments[..], number(2, 300), number(3, 1))
    else {
        eprintln!("usage: programs ENGINE REFERENCE [TEXTS [SEED]]");
        return ExitCode::from(2);
    };
    let folders = Folders {
        engine: Path::new(engine).to_path_buf(),
        reference: Path::new(reference).to_path_buf(),
    };
    match run(&folders, texts as usize, seed) {
        Ok(()) => ExitCode::SUCCESS,
        Err(difference) => {
            eprintln!("{difference}");
            ExitCode::FAILURE
        }
    }
}
